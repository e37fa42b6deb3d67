//! An allocator with holders: the cases of request T-07, those that need all records or all entries, and what the crate shows of it.

mod holding;

use cinghjalofa::{is_sound_with_holders, HELD_RANGES, HOLDERS, HOLDERS_IMAGE_BYTES, RECORDS};
use cinghjalofa::{HeldRange, HolderAllocator, HolderError, LentHolderAllocator, MemoryError, UnknownNumber};
use holding::holder_image::{entries_of, written, MEMORY_AT};
use holding::holder_model::{self as model, Call, Held, Model};
use holding::holders::{self as table, Case, Line};
use holding::{cases, held, Both};

fn play(case: &Case) {
    let mut both = Both::new();
    for line in &case.lines {
        match line {
            Line::Call(letter, numbers, answer) => {
                assert_eq!(both.ask(*letter, numbers), *answer, "{}: {letter} {numbers:?}", case.name);
            }
            Line::Held(holder, ranges) => {
                let shown = both.own.holdings(*holder as usize).map(held);
                let due = ranges.iter().map(|&(start, last)| Held { holder: *holder, start, last });
                assert!(shown.eq(due), "{}: what {holder} holds", case.name);
            }
            Line::Free(ranges) => assert_eq!(both.free(), *ranges, "{}", case.name),
        }
    }
    let mut left: Vec<_> = case.left.iter().map(|&(holder, start, last)| Some(Held { holder, start, last })).collect();
    left.resize(HELD_RANGES, None);
    assert_eq!(entries_of(both.own.image()), written(&left), "{}", case.name);
}

#[test]
fn the_cases_that_are_of_any_size() {
    assert!(cases().iter().filter(|case| case.is_of_any_size()).map(play).count() > 20);
}

/// The judge of the random histories, held to all the cases.
#[test]
fn the_model_answers_as_the_cases_do() {
    for case in cases() {
        let mut model = Model::new(case.records.unwrap_or(table::RECORDS), case.entries.unwrap_or(table::ENTRIES));
        for line in &case.lines {
            match line {
                Line::Call(letter, numbers, answer) => {
                    let call = Call::of(*letter, numbers).unwrap();
                    assert_eq!(model.play(call), *answer, "{}: {call:?}", case.name);
                }
                Line::Held(holder, ranges) => {
                    let shown: Vec<_> = model.held(Some(*holder)).iter().map(|of| (of.start, of.last)).collect();
                    assert_eq!(shown, *ranges, "{}", case.name);
                }
                Line::Free(ranges) => assert_eq!(model.free(), *ranges, "{}", case.name),
            }
        }
        let mut left: Vec<_> =
            case.left.iter().map(|&(holder, start, last)| Some(Held { holder, start, last })).collect();
        left.resize(model.entries.len(), None);
        assert_eq!(model.entries, left, "{}", case.name);
    }
}

#[test]
fn the_model_is_of_as_many_records_entries_and_holders() {
    assert_eq!((RECORDS, HELD_RANGES, HOLDERS as u64), (model::RECORDS, model::ENTRIES, model::HOLDERS));
    assert_eq!(HOLDERS_IMAGE_BYTES - cinghjalofa::IMAGE_BYTES, MEMORY_AT);
}

/// All entries are used, one byte each, by holder 1; byte 64 is free.
fn with_full_register() -> Both {
    let mut both = Both::with(&[('o', &[0, 65])]);
    for k in 0..64 {
        assert_eq!(both.ask('a', &[1, 1, 0]), k);
    }
    both
}

#[test]
fn the_entries_are_of_all_holders_together_and_come_back() {
    let mut both = with_full_register();
    assert_eq!(both.ask('a', &[2, 1, 0]), -6);
    assert_eq!((both.ask('f', &[1, 0, 1]), both.ask('a', &[2, 1, 0])), (0, 0)); // byte 0: the newer of two ranges of one byte
    assert_eq!(both.own.held().len(), HELD_RANGES);
}

#[test]
fn a_full_register_is_the_last_of_all_reasons() {
    let mut both = with_full_register();
    for (letter, numbers, answer) in [
        ('a', &[1, 0, 0][..], -4),
        ('a', &[17, 1, 0], -4),
        ('a', &[1, 2, 0], -3),
        ('r', &[1, 0, 1, 0], -4),
        ('a', &[1, 1, 0], -6),
        ('r', &[1, 64, 1, 0], -6),
    ] {
        assert_eq!(both.ask(letter, numbers), answer, "{letter} {numbers:?}");
    }
}

#[test]
fn want_of_a_record_comes_before_a_full_register() {
    let mut both = Both::with(&[('o', &[0, 64])]);
    (0..64).for_each(|_| assert!(both.ask('a', &[1, 1, 0]) >= 0));
    (0..256).for_each(|k| assert_eq!(both.ask('o', &[1001 + 8 * k, 3]), 0));
    assert_eq!((both.ask('a', &[1, 1, 1]), both.ask('a', &[1, 1, 0])), (-1, -6));
    assert_eq!((both.ask('r', &[1, 1002, 1, 0]), both.ask('r', &[1, 1001, 1, 0])), (-1, -6));
}

/// To take the bytes and free them again would make the range at 1000 the newer one.
#[test]
fn a_full_register_leaves_the_order_among_equals() {
    let mut both = with_full_register();
    assert_eq!((both.ask('o', &[1000, 16]), both.ask('o', &[2000, 16])), (0, 0));
    assert_eq!(both.ask('r', &[1, 1000, 16, 0]), -6);
    assert_eq!((both.ask('f', &[1, 5, 1]), both.ask('a', &[1, 16, 0])), (0, 2000));
}

/// Byte 0 is held by 1, and 256 ranges are free that touch nothing.
fn with_all_records() -> Both {
    let mut both = Both::with(&[('o', &[0, 1]), ('a', &[1, 1, 0])]);
    (1..=256).for_each(|k| assert_eq!(both.ask('o', &[2 * k, 1]), 0));
    both
}

#[test]
fn not_yours_comes_after_every_4_and_before_1() {
    let mut both = with_all_records();
    assert_eq!((both.ask('o', &[0, 1]), both.ask('f', &[2, 0, 1])), (-5, -5));
    assert_eq!((both.ask('f', &[1, 2, 1]), both.ask('o', &[600, 1])), (-4, -1));
}

#[test]
fn a_range_that_finds_no_record_stays_held() {
    let mut both = with_all_records();
    assert_eq!(both.ask('f', &[1, 0, 1]), -1);
    assert!(both.own.holdings(1).eq([HeldRange { holder: 1, start: 0, last: 0 }]));
    assert_eq!((both.ask('o', &[1, 1]), both.ask('f', &[1, 0, 1])), (0, 0));
    assert_eq!(both.own.held().len(), 0);
}

#[test]
fn what_is_held_is_shown_by_address() {
    let mut both = Both::with(&[('o', &[0, 0x100])]);
    let order = [7, 3, 1, 6, 0, 5, 4, 2];
    order.iter().for_each(|&k| assert_eq!(both.ask('r', &[1 + k % 3, 0x10 * k, 8, 0]), 0));
    let due = |k: usize| HeldRange { holder: 1 + k % 3, start: 0x10 * k, last: 0x10 * k + 7 };
    let mut shown = both.own.held();
    for k in 0..8 {
        assert_eq!((shown.len(), shown.size_hint()), (8 - k, (8 - k, Some(8 - k))));
        assert_eq!(shown.next(), Some(due(k)));
    }
    assert_eq!((shown.next(), shown.next(), shown.len()), (None, None, 0));
    assert!(both.own.holdings(2).eq([1, 4, 7].map(due)));
    for nobody in [0, 4, HOLDERS, HOLDERS + 1, 257, usize::MAX] {
        assert_eq!(both.own.holdings(nobody).len(), 0, "{nobody}");
    }
    assert_eq!(format!("{:?}", both.own.holdings(2)), "[2: 0x10..=0x17, 2: 0x40..=0x47, 2: 0x70..=0x77]");
}

#[test]
fn an_allocator_is_printed_with_who_holds_what() {
    let mut both = Both::with(&[('o', &[0x1000, 0x1000])]);
    assert_eq!(both.ask('a', &[16, 0x800, 0]), 0x1000);
    let shown = "HolderAllocator { total: 0x800, ranges: [0x1800..=0x1fff], held: [16: 0x1000..=0x17ff] }";
    assert_eq!(format!("{:?}", both.own), shown);
    let mut image = *both.own.image();
    assert_eq!(format!("{:?}", LentHolderAllocator::from_image(&mut image).unwrap()), format!("Lent{shown}"));
}

/// What the register refuses leaves the lowest figure, as all refusals do.
#[test]
fn refusals_leave_the_lowest_figure() {
    assert_eq!(HolderAllocator::new().lowest(), None);
    let mut both = with_full_register();
    assert_eq!(both.own.lowest(), Some(1));
    assert_eq!((both.ask('a', &[2, 1, 0]), both.ask('f', &[2, 0, 1])), (-6, -5));
    assert_eq!((both.own.lowest(), both.ask('f', &[1, 0, 1])), (Some(1), 0));
    assert_eq!((both.own.lowest(), both.own.total()), (Some(1), 2));
    assert_eq!((both.ask('a', &[2, 1, 0]), both.ask('f', &[2, 0, 1]), both.own.lowest()), (0, 0, Some(1)));
}

#[test]
fn the_last_address_can_be_held() {
    let top = 1 << 63;
    let mut both = Both::with(&[('o', &[0, top])]);
    assert_eq!((both.own.total() as u64, both.ask('r', &[9, top - 1, 1, 0])), (top, 0));
    assert!(both.own.held().eq([HeldRange { holder: 9, start: top as usize - 1, last: top as usize - 1 }]));
    assert_eq!((both.ask('f', &[9, top - 1, 2]), both.ask('f', &[9, top - 1, 1])), (-4, 0));
    assert_eq!(both.own.total() as u64, top);
}

#[test]
fn errors_go_to_numbers_and_back() {
    for number in 0..=u8::MAX {
        match HolderError::try_from(number) {
            Ok(error) => assert_eq!((error.number(), u8::from(error)), (number, number)),
            Err(unknown) => assert_eq!((unknown, (1..=6).contains(&number)), (UnknownNumber(number), false)),
        }
        if let Ok(error) = MemoryError::try_from(number) {
            let same = HolderError::from(error);
            assert_eq!((same.number(), same.to_string()), (number, error.to_string()));
        }
    }
    let texts: std::collections::HashSet<_> = (1..=6).map(|k| HolderError::try_from(k).unwrap().to_string()).collect();
    assert_eq!(texts.len(), 6);
}

/// `?` takes a refusal of either kind to the one of holders, and that to `Box<dyn Error>`.
#[cfg(cinghjalofa_core_error)]
#[test]
fn errors_are_errors() {
    fn below() -> Result<usize, HolderError> {
        Ok(cinghjalofa::MemoryAllocator::new().allocate(1, 0)?)
    }
    fn refused() -> Result<(), Box<dyn std::error::Error>> {
        HolderAllocator::new().free(1, 0, 1)?;
        Ok(())
    }
    assert_eq!(below(), Err(HolderError::NoMemory));
    assert_eq!(refused().unwrap_err().to_string(), HolderError::NotYours.to_string());
}

/// A damaged state shows nothing, and each call is refused.
#[test]
fn a_stray_write_is_noticed() {
    let both = Both::with(&[('o', &[0, 0x100]), ('a', &[1, 8, 0])]);
    let sound = *both.own.image();
    for at in [0, 4, 5, 13, 21, 22, MEMORY_AT, HOLDERS_IMAGE_BYTES - 1] {
        let mut memory = HolderAllocator::from_image(&sound).unwrap();
        // SAFETY: the byte lies in the allocator, which is its image and nothing else.
        unsafe { *core::ptr::addr_of_mut!(memory).cast::<u8>().add(at) ^= 0x80 };
        assert_eq!((memory.is_sound(), is_sound_with_holders(memory.image())), (false, false), "byte {at}");
        assert_eq!((memory.total(), memory.ranges().len(), memory.held().len()), (0, 0, 0), "byte {at}");
        assert_eq!(memory.holdings(1).len(), 0, "byte {at}");
        assert_eq!(memory.allocate(17, 0, 64), Err(HolderError::InvalidEntry), "byte {at}");
        assert_eq!(memory.offer(0x1000, 1), Err(HolderError::InvalidEntry), "byte {at}");
        assert_eq!(memory.free(1, 0, 8), Err(HolderError::InvalidEntry), "byte {at}");
        assert_eq!(memory.reserve_memory(1, 0x10, 1, 0), Err(HolderError::InvalidEntry), "byte {at}");
    }
}
