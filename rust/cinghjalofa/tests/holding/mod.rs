//! What the tests of an allocator with holders share: the cases, the model, and one call of either type.

#![allow(dead_code)] // each uses a part

pub mod holder_image;
pub mod holder_model;
pub mod holder_random;
pub mod holders;

use cinghjalofa::{HeldRange, HolderAllocator, HolderError, LentHolderAllocator, HOLDERS_IMAGE_BYTES};
use holder_model::{Call, Held};

pub fn cases() -> Vec<holders::Case> {
    holders::read(concat!(env!("CARGO_MANIFEST_DIR"), "/tests/holding/holders.txt")).unwrap()
}

/// An address or 0, or minus the refusal.
fn signed(answer: Result<usize, HolderError>) -> i64 {
    answer.map_or_else(|refusal| -i64::from(refusal.number()), |address| address as i64)
}

macro_rules! answer {
    ($memory:expr, $call:expr) => {
        match $call {
            Call::Offer { start, size } => signed($memory.offer(start as usize, size as usize).map(|()| 0)),
            Call::Allocate { holder, size, order } => {
                signed($memory.allocate(holder as usize, size as usize, order as usize))
            }
            Call::Reserve { holder, start, size, order } => {
                let (holder, start) = (holder as usize, start as usize);
                signed($memory.reserve_memory(holder, start, size as usize, order as usize).map(|()| 0))
            }
            Call::Free { holder, start, size } => {
                signed($memory.free(holder as usize, start as usize, size as usize).map(|()| 0))
            }
        }
    };
}

/// One history on an allocator that owns its image, and on one that is lent it: they must not be told apart.
pub struct Both {
    pub own: HolderAllocator,
    lent: Vec<u8>,
}

impl Both {
    pub fn new() -> Both {
        let mut lent = vec![0xaa; HOLDERS_IMAGE_BYTES];
        LentHolderAllocator::new(&mut lent).unwrap();
        Both { own: HolderAllocator::new(), lent }
    }

    /// A refusal has changed no byte.
    pub fn play(&mut self, call: Call) -> i64 {
        let before = *self.own.image();
        let answer = answer!(self.own, call);
        let mut lent = LentHolderAllocator::from_image(&mut self.lent).unwrap();
        assert_eq!(answer!(lent, call), answer, "{call:?}, of a lent image");
        assert_eq!((lent.total(), lent.lowest()), (self.own.total(), self.own.lowest()));
        assert!(lent.ranges().eq(self.own.ranges()) && lent.held().eq(self.own.held()));
        assert!(lent.image() == self.own.image(), "{call:?} leaves another image where it is lent");
        assert!(answer >= 0 || *self.own.image() == before, "{call:?} was refused with {answer} and changed a byte");
        answer
    }

    /// The calls, which must be accepted.
    pub fn with(calls: &[(char, &[u64])]) -> Both {
        let mut both = Both::new();
        for (letter, numbers) in calls {
            let answer = both.play(Call::of(*letter, numbers).unwrap());
            assert!(answer >= 0, "{letter} {numbers:?} is refused with {answer}");
        }
        both
    }

    pub fn ask(&mut self, letter: char, numbers: &[u64]) -> i64 {
        self.play(Call::of(letter, numbers).unwrap())
    }

    pub fn free(&self) -> Vec<(u64, u64)> {
        self.own.ranges().map(|range| (range.start as u64, range.last as u64)).collect()
    }
}

pub fn held(range: HeldRange) -> Held {
    Held { holder: range.holder as u64, start: range.start as u64, last: range.last as u64 }
}
