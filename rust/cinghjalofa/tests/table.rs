//! The table of cases, by the two allocators that own their state and by a lent one: each answer, each listing, and no byte changed by a refusal.

mod cases;

use cases::{Call, Case, Line, Table};
use cinghjalofa::{FreeRange, LentAllocator, MemoryAllocator, MemoryError, UncheckedAllocator, IMAGE_BYTES};

fn table() -> Table {
    cases::read(concat!(env!("CARGO_MANIFEST_DIR"), "/tests/cases/cases.txt")).unwrap()
}

fn signed(answer: Result<usize, MemoryError>) -> i64 {
    answer.map_or_else(|refusal| -i64::from(refusal.number()), |address| address as i64)
}

macro_rules! answer {
    ($memory:expr, $call:expr) => {
        match ($call.word.as_str(), &$call.numbers.iter().map(|&number| number as usize).collect::<Vec<_>>()[..]) {
            ("f", &[start, size]) => signed($memory.free(start, size).map(|()| 0)),
            ("a", &[size, order]) => signed($memory.allocate(size, order)),
            ("r", &[start, size, order]) => signed($memory.reserve_memory(start, size, order).map(|()| 0)),
            ("p", &[count, order]) => signed($memory.allocate_pages(count, order)),
            ("q", &[address, count]) => signed($memory.free_pages(address, count).map(|()| 0)),
            (word, numbers) => panic!("a call that cannot be read: {word} {numbers:?}"),
        }
    };
}

fn shown(call: &Call) -> String {
    format!("{} {:?}", call.word, call.numbers)
}

fn holds(case: &Case, held: (usize, Vec<FreeRange>), total: u64, ranges: &[(u64, u64)]) {
    let wanted = ranges.iter().map(|&(first, last)| FreeRange { start: first as usize, last: last as usize });
    assert_eq!(held, (total as usize, wanted.collect()), "{}", case.name);
}

macro_rules! play_owned {
    ($name:ident, $allocator:ident) => {
        fn $name(case: &Case) {
            let mut memory = $allocator::new();
            for line in &case.lines {
                match line {
                    Line::Call(call) => {
                        let before = memory.image();
                        assert_eq!(answer!(memory, call), call.answer, "{}: {}", case.name, shown(call));
                        assert!(call.answer >= 0 || memory.image() == before, "{}: {}", case.name, shown(call));
                    }
                    Line::List { total, ranges } => {
                        holds(case, (memory.total(), memory.ranges().collect()), *total, ranges)
                    }
                    Line::Book { .. } => {} // tests/c_calls holds the image to it
                }
            }
        }
    };
}

play_owned!(play_checked, MemoryAllocator);
play_owned!(play_unchecked, UncheckedAllocator);

fn play_lent(case: &Case) {
    let mut bytes = [0xaa; IMAGE_BYTES];
    LentAllocator::new(&mut bytes).unwrap();
    for line in &case.lines {
        let before = bytes;
        let mut memory = LentAllocator::from_image(&mut bytes).unwrap();
        match line {
            Line::Call(call) => {
                assert_eq!(answer!(memory, call), call.answer, "{}: {}", case.name, shown(call));
                assert!(call.answer >= 0 || bytes == before, "{}: {}", case.name, shown(call));
            }
            Line::List { total, ranges } => holds(case, (memory.total(), memory.ranges().collect()), *total, ranges),
            Line::Book { .. } => {}
        }
    }
}

#[test]
fn an_allocator_that_checks_its_state() {
    assert!(table().playable().map(play_checked).count() > 0);
}

#[test]
fn an_allocator_that_does_not() {
    assert!(table().playable().map(play_unchecked).count() > 0);
}

#[test]
fn a_lent_allocator() {
    assert!(table().playable().map(play_lent).count() > 0);
}

#[test]
fn the_table_is_of_as_many_records_as_an_image_has() {
    assert_eq!(table().records as usize, (IMAGE_BYTES - 39) / 25);
}
