//! What Rust programs take for granted: iterators, errors, hashes, what is printed.

use std::collections::{BTreeSet, HashSet};

use cinghjalofa::{
    Call, CallAnswer, FreeRange, LentAllocator, MemoryAllocator, MemoryError, UncheckedAllocator, UnknownNumber,
    RECORDS,
};

const ERRORS: [MemoryError; 4] =
    [MemoryError::NoEntry, MemoryError::InvalidEntry, MemoryError::NoMemory, MemoryError::InvalidRequest];

fn with_ranges(count: usize) -> MemoryAllocator {
    let mut memory = MemoryAllocator::new();
    for k in (0..count).rev() {
        memory.free(k * 0x1000, 0x10).unwrap();
    }
    memory
}

fn range(k: usize) -> FreeRange {
    FreeRange { start: k * 0x1000, last: k * 0x1000 + 0xf }
}

#[test]
fn ranges_have_a_length_and_two_ends() {
    for count in [0, 1, 2, 7, RECORDS] {
        let memory = with_ranges(count);
        let mut ranges = memory.ranges();
        for k in 0..count {
            assert_eq!((ranges.len(), ranges.size_hint()), (count - k, (count - k, Some(count - k))));
            assert_eq!(ranges.next(), Some(range(k)));
        }
        assert_eq!((ranges.next(), ranges.next(), ranges.next_back(), ranges.len()), (None, None, None, 0));
        assert!(memory.ranges().rev().eq((0..count).rev().map(range)));
    }
    let memory = with_ranges(5);
    let mut ranges = memory.ranges();
    assert_eq!((ranges.next(), ranges.next_back(), ranges.next()), (Some(range(0)), Some(range(4)), Some(range(1))));
    assert_eq!((ranges.next_back(), ranges.len()), (Some(range(3)), 1));
    assert_eq!((ranges.next_back(), ranges.next_back(), ranges.next()), (Some(range(2)), None, None));
}

#[test]
fn ranges_are_those_of_the_moment() {
    let mut memory = with_ranges(3);
    for range in memory.ranges() {
        memory.reserve_memory(range.start, range.size(), 0).unwrap();
    }
    assert_eq!((memory.total(), memory.ranges().len()), (0, 0));
}

#[test]
fn each_allocator_goes_into_a_loop() {
    let memory = with_ranges(3);
    let unchecked = UncheckedAllocator::from_image(&memory.image()).unwrap();
    let mut image = memory.image();
    let lent = LentAllocator::from_image(&mut image).unwrap();
    let mut seen = Vec::new();
    for range in &memory {
        seen.push(range);
    }
    seen.extend(&unchecked);
    seen.extend(&lent);
    assert!(seen.into_iter().eq((0..9).map(|k| range(k % 3))));
}

/// A damaged state shows nothing: total, lowest figure, ranges and listing are the proved calls', which refuse it.
#[test]
fn a_damaged_state_shows_nothing() {
    let mut memory = with_ranges(3);
    assert_eq!((memory.total(), memory.lowest(), memory.ranges().len()), (0x30, Some(0x10), 3));
    // SAFETY: the byte, of the total, lies in the allocator, all of whose fields are numbers.
    unsafe { *core::ptr::addr_of_mut!(memory).cast::<u64>().add(1).cast::<u8>() ^= 1 };
    let (mut starts, mut lasts) = ([7; RECORDS], [8; RECORDS]);
    assert_eq!((memory.total(), memory.lowest(), memory.ranges().len(), memory.is_sound()), (0, None, 0, false));
    assert_eq!(memory.listing(&mut starts, &mut lasts), Err(MemoryError::InvalidEntry));
    assert_eq!((starts, lasts), ([7; RECORDS], [8; RECORDS]));
}

#[test]
fn every_byte_free_is_a_total() {
    let mut memory = MemoryAllocator::new();
    memory.free(0, 1 << 63).unwrap();
    let mut image = memory.image();
    assert_eq!((memory.total(), LentAllocator::from_image(&mut image).unwrap().total()), (1 << 63, 1 << 63));
}

#[test]
fn errors_go_to_numbers_and_back() {
    for number in 0..=u8::MAX {
        match MemoryError::try_from(number) {
            Ok(error) => assert_eq!((error.number(), u8::from(error)), (number, number)),
            Err(unknown) => assert_eq!(unknown, UnknownNumber(number)),
        }
    }
    assert_eq!(ERRORS.map(MemoryError::number), [1, 2, 3, 4]);
    assert_eq!(ERRORS.map(|error| error.to_string()).into_iter().collect::<HashSet<_>>().len(), 4);
    assert_eq!(UnknownNumber(5).to_string(), "no refusal has the number 5");
}

/// `?` takes them to `Box<dyn Error>`, where the compiler has `core::error`.
#[cfg(cinghjalofa_core_error)]
#[test]
fn errors_are_errors() {
    fn refused() -> Result<(), Box<dyn std::error::Error>> {
        MemoryAllocator::new().allocate(1, 0)?;
        Ok(())
    }
    assert_eq!(refused().unwrap_err().to_string(), MemoryError::NoMemory.to_string());
}

#[test]
fn ranges_and_calls_are_ordered_hashed_and_printed() {
    let ranges: BTreeSet<_> = with_ranges(4).ranges().rev().collect();
    assert!(ranges.into_iter().eq((0..4).map(range)));
    let calls = [Call::free(0x10, 0x20), Call::allocate(0x10, 12), Call::reserve_memory(0x10, 0x20, 3)];
    assert_eq!(calls.iter().chain(&calls).collect::<HashSet<_>>().len(), 3);
    assert_eq!(
        format!("{calls:?}"),
        "[Call::free(0x10, 0x20), Call::allocate(0x10, 12), Call::reserve_memory(0x10, 0x20, 3)]"
    );
    let mut memory = with_ranges(2);
    assert_eq!(format!("{memory:?}"), "MemoryAllocator { total: 0x20, ranges: [0x0..=0xf, 0x1000..=0x100f] }");
    let mut answers = [CallAnswer::default(); 2];
    memory.serve(&[Call::reserve_memory(0x1000, 1, 0), Call::allocate(0x1000, 0)], &mut answers).unwrap();
    assert_eq!(format!("{answers:?}"), "[Ok(0x0), Err(NoMemory)]");
    assert_eq!(Result::from(answers[1]), Err(MemoryError::NoMemory));
    assert_eq!(std::ops::RangeInclusive::from(range(1)), 0x1000..=0x100f);
}
