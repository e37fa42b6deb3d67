//! The original Rust as judge. The crate `original` is made at build time; it holds the module four times:
//! untouched and counting (without the second addition to `free_size`), each plain and with the read-only accessor.

use std::cell::Cell;
use std::panic::{self, AssertUnwindSafe};

use original::{counting, counting_watched, untouched, untouched_watched};

use crate::call::{Answer, Call};
use crate::shape::{Record, Shape, FRESH, LISTS, NONE, RECORDS};

pub type Untouched = Judge<untouched::MemoryAllocator, untouched_watched::MemoryAllocator>;
pub type Counting = Judge<counting::MemoryAllocator, counting_watched::MemoryAllocator>;

/// One of the four compilations of the module.
pub trait Module {
    fn fresh() -> Self;
    /// The result of the call, a refusal as its number.
    fn call(&mut self, call: Call) -> Result<u64, u8>;
}

pub trait Watched: Module {
    fn shape(&self) -> Shape;
}

/// The module as it stands and the copy that can be looked into, played side by side.
pub struct Judge<Plain: Module, Seen: Watched> {
    plain: Plain,
    seen: Seen,
}

impl<Plain: Module, Seen: Watched> Judge<Plain, Seen> {
    pub fn new() -> Self {
        Judge { plain: Plain::fresh(), seen: Seen::fresh() }
    }

    /// A second judge in the same state.
    pub fn copy(&self) -> Self {
        // The module keeps indexes, no pointers, and has no `Drop`: its bytes are its whole state.
        unsafe { std::ptr::read(self) }
    }

    pub fn play(&mut self, call: Call) -> Answer {
        let answer = play_guarded(&mut self.plain, call);
        let seen = play_guarded(&mut self.seen, call);
        assert_eq!(
            answer, seen,
            "the copy with the accessor answers `{call}` otherwise than the module it was made from"
        );
        answer
    }

    pub fn shape(&self) -> Shape {
        self.seen.shape()
    }
}

thread_local! {
    static INSIDE_THE_RUST: Cell<bool> = const { Cell::new(false) };
}

/// From here on a panic inside the original prints nothing; others print as ever.
pub fn silence_assertions() {
    let usual = panic::take_hook();
    panic::set_hook(Box::new(move |info| {
        if !INSIDE_THE_RUST.with(Cell::get) {
            usual(info);
        }
    }));
}

fn play_guarded(module: &mut impl Module, call: Call) -> Answer {
    INSIDE_THE_RUST.with(|inside| inside.set(true));
    let result = panic::catch_unwind(AssertUnwindSafe(|| module.call(call)));
    INSIDE_THE_RUST.with(|inside| inside.set(false));
    match result {
        Ok(Ok(address)) => Answer::Accepted(address),
        Ok(Err(number)) => Answer::Refused(number),
        Err(_) => Answer::Assertion,
    }
}

macro_rules! module {
    ($module:ident) => {
        impl Module for $module::MemoryAllocator {
            fn fresh() -> Self {
                Self::new()
            }

            fn call(&mut self, call: Call) -> Result<u64, u8> {
                let result = match call {
                    Call::Free { start, size } => self.free(start as usize, size as usize).map(|()| 0),
                    Call::Allocate { size, order } => self.allocate(size as usize, order as usize),
                    Call::Reserve { start, size, order } => {
                        self.reserve_memory(start as usize, size as usize, order as usize).map(|()| 0)
                    }
                };
                result.map(|address| address as u64).map_err(|error| match error {
                    $module::MemoryError::NoEntry => 1,
                    $module::MemoryError::InvalidEntry => 2,
                    $module::MemoryError::NoMemory => 3,
                    $module::MemoryError::InvalidRequest => 4,
                })
            }
        }
    };
}

macro_rules! watched {
    ($module:ident) => {
        const _: () = assert!($module::MemoryAllocator::WATCHED_POOL_SIZE == RECORDS);
        const _: () = assert!($module::MemoryAllocator::WATCHED_LISTS == LISTS);

        impl Watched for $module::MemoryAllocator {
            fn shape(&self) -> Shape {
                let mut shape = Shape {
                    total: self.watched_free_size() as u64,
                    first: link(self.watched_first_entry()),
                    heads: [NONE; LISTS],
                    records: [FRESH; RECORDS],
                };
                for (list, head) in shape.heads.iter_mut().enumerate() {
                    *head = link(self.watched_head(list));
                }
                for (at, record) in shape.records.iter_mut().enumerate() {
                    let entry = self.watched_entry(at);
                    if entry.enabled {
                        assert_eq!(entry.id as usize, at, "the Rust numbers an entry otherwise than its place");
                        *record = Record {
                            enabled: true,
                            start: entry.start as u64,
                            end: entry.end as u64,
                            previous: link(entry.previous),
                            next: link(entry.next),
                            list_prev: link(entry.list_prev),
                            list_next: link(entry.list_next),
                        };
                    }
                }
                shape
            }
        }
    };
}

fn link(entry: Option<u32>) -> u16 {
    entry.map_or(NONE, |index| index as u16)
}

module!(untouched);
module!(untouched_watched);
module!(counting);
module!(counting_watched);
watched!(untouched_watched);
watched!(counting_watched);
