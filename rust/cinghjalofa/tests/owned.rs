//! The two allocators that own their state: the same answers and images; a stray write is noticed by the one that checks.

use core::mem::size_of;

use cinghjalofa::{Call, CallAnswer, LentAllocator, MemoryAllocator, MemoryError, UncheckedAllocator, IMAGE_BYTES};

const CALLS: [Call; 8] = [
    Call::free(0x10000, 0x10000),
    Call::free(0x40000, 0x3000),
    Call::allocate(0x1000, 0),
    Call::allocate(0x2000, 14),
    Call::reserve_memory(0x1a000, 1, 12),
    Call::free(0x40000, 0x1000),
    Call::free(0x40000, 0x1000), // free already
    Call::allocate(0x100000, 0), // too much
];

/// The bytes of its fields; behind them lies padding.
const FIELD_BYTES: usize = 2 * 8 + 2 * 256 * 8 + 256 + 12 * 2 + 4 * 256 * 2 + 2;

fn served() -> MemoryAllocator {
    let mut memory = MemoryAllocator::new();
    memory.serve(&CALLS, &mut [CallAnswer::default(); CALLS.len()]).unwrap();
    memory
}

#[test]
fn all_three_answer_alike_and_leave_the_same_image() {
    let (mut checked, mut unchecked) = (MemoryAllocator::new(), UncheckedAllocator::new());
    let mut image = [0; IMAGE_BYTES];
    let mut lent = LentAllocator::new(&mut image).unwrap();
    for call in CALLS {
        let (mut one, mut two, mut three) = ([CallAnswer::default()], [CallAnswer::default()], [CallAnswer::default()]);
        checked.serve(&[call], &mut one).unwrap();
        unchecked.serve(&[call], &mut two).unwrap();
        lent.serve(&[call], &mut three).unwrap();
        assert_eq!((one, one), (two, three), "{call:?}");
        assert!(checked.ranges().eq(unchecked.ranges()) && checked.ranges().eq(lent.ranges()), "{call:?}");
        assert_eq!((checked.total(), checked.total()), (unchecked.total(), lent.total()), "{call:?}");
        assert_eq!((checked.lowest(), checked.lowest()), (unchecked.lowest(), lent.lowest()), "{call:?}");
    }
    assert_eq!((checked.image(), checked.image()), (unchecked.image(), image));
}

#[test]
fn single_calls_are_those_of_a_list() {
    let (mut checked, mut unchecked) = (MemoryAllocator::new(), UncheckedAllocator::new());
    for result in [checked.free(0x10000, 0x10000), unchecked.free(0x10000, 0x10000)] {
        assert_eq!(result, Ok(()));
    }
    for result in [checked.free(0x40000, 0x3000), unchecked.free(0x40000, 0x3000)] {
        assert_eq!(result, Ok(()));
    }
    for result in [checked.allocate(0x1000, 0), unchecked.allocate(0x1000, 0)] {
        assert_eq!(result, Ok(0x40000));
    }
    for result in [checked.allocate(0x2000, 14), unchecked.allocate(0x2000, 14)] {
        assert_eq!(result, Ok(0x10000));
    }
    for result in [checked.reserve_memory(0x1a000, 1, 12), unchecked.reserve_memory(0x1a000, 1, 12)] {
        assert_eq!(result, Ok(()));
    }
    for result in [checked.free_pages(0x40000, 1), unchecked.free_pages(0x40000, 1)] {
        assert_eq!(result, Ok(()));
    }
    for result in [checked.free_pages(0x40000, 1), unchecked.free_pages(0x40000, 1)] {
        assert_eq!(result, Err(MemoryError::InvalidRequest));
    }
    for result in [checked.allocate_pages(0x100, 0), unchecked.allocate_pages(0x100, 0)] {
        assert_eq!(result, Err(MemoryError::NoMemory));
    }
    assert_eq!((checked.image(), unchecked.image()), (served().image(), served().image()));
}

/// Whether the lowest figure with this bit changed may stand beside the total, as it did before.
fn fits(memory: &MemoryAllocator, bit: usize) -> bool {
    (memory.lowest().unwrap() ^ 1 << bit) <= memory.total()
}

/// Whatever byte of the allocator's memory is written over, each call is answered InvalidEntry and changes nothing; but for a lowest figure that
/// fits as well.
#[test]
fn a_stray_write_is_noticed() {
    let size = size_of::<MemoryAllocator>();
    assert!((FIELD_BYTES..FIELD_BYTES + 8).contains(&size), "{size} bytes");
    for at in 0..FIELD_BYTES {
        let mut memory = served();
        if at < 8 && fits(&memory, 8 * at + 7) {
            continue;
        }
        // SAFETY: the byte lies in the allocator, all of whose fields are numbers.
        unsafe { *core::ptr::addr_of_mut!(memory).cast::<u8>().add(at) ^= 0x80 };
        assert!(!memory.is_sound(), "byte {at}");
        assert_eq!(memory.free(0x80000, 0x1000), Err(MemoryError::InvalidEntry), "byte {at}");
        assert_eq!(memory.allocate(0x1000, 0), Err(MemoryError::InvalidEntry), "byte {at}");
        assert_eq!(memory.allocate_pages(0, 0), Err(MemoryError::InvalidEntry), "byte {at}");
        let mut answers = [CallAnswer::default()];
        assert_eq!(memory.serve(&CALLS[..1], &mut answers), Err(MemoryError::InvalidEntry), "byte {at}");
        assert_eq!((memory.image(), answers), ([0; IMAGE_BYTES], [CallAnswer::default()]), "byte {at}");
        unsafe { *core::ptr::addr_of_mut!(memory).cast::<u8>().add(at) ^= 0x80 };
        assert_eq!(memory.image(), served().image(), "a refusal changed something where byte {at} was written over");
    }
}

#[test]
fn an_image_is_checked_on_its_way_in() {
    let image = served().image();
    let (checked, unchecked) =
        (MemoryAllocator::from_image(&image).unwrap(), UncheckedAllocator::from_image(&image).unwrap());
    assert_eq!((checked.image(), unchecked.image()), (image, image));
    for at in 0..IMAGE_BYTES {
        let mut damaged = image;
        damaged[at] ^= 0x80;
        if (39..47).contains(&at) && fits(&checked, 8 * (46 - at) + 7) {
            continue;
        }
        assert_eq!(MemoryAllocator::from_image(&damaged).err(), Some(MemoryError::InvalidEntry), "byte {at}");
        assert_eq!(UncheckedAllocator::from_image(&damaged).err(), Some(MemoryError::InvalidEntry), "byte {at}");
    }
    assert_eq!(UncheckedAllocator::from_image(&image[1..]).err(), Some(MemoryError::InvalidEntry));
}
