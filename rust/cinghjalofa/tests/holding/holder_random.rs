//! What random histories of an allocator with holders ask, drawn from a seed: small numbers that meet one another, the last addresses, all
//! records in use, and now and then a number that cannot be.

use super::holder_model::{Call, Held, Model, HOLDERS, RECORDS, TOP};

/// So many kinds of history, one after the other.
pub const KINDS: [Kind; 6] = [
    Kind { base: 0, reach: 24, longest: 6, orders: 3, frees: 30, is_crowded: false },
    Kind { base: 0x1000, reach: 300, longest: 4, orders: 4, frees: 30, is_crowded: false },
    Kind { base: 0x1000, reach: 300, longest: 2, orders: 2, frees: 5, is_crowded: false }, // the entries run out
    Kind { base: 0x4000_0000, reach: 0x10_0000, longest: 0x3000, orders: 14, frees: 30, is_crowded: false },
    Kind { base: TOP - 64, reach: 70, longest: 20, orders: 7, frees: 30, is_crowded: false },
    Kind { base: 0, reach: 256 * 8, longest: 4, orders: 2, frees: 20, is_crowded: true }, // the records run out
];

/// What is drawn: Knuth's multiplier, and the upper half of what it makes.
struct Rng(u64);

impl Rng {
    fn below(&mut self, bound: u64) -> u64 {
        self.0 = self.0.wrapping_mul(6364136223846793005).wrapping_add(1442695040888963407);
        (self.0 >> 33) % bound
    }

    fn one_of<T: Copy>(&mut self, all: &[T]) -> T {
        all[self.below(all.len() as u64) as usize]
    }
}

/// A kind of history: where its addresses begin, how far they reach, the longest size, the greatest order, how many of 100 calls are frees,
/// and whether 256 ranges that touch nothing are offered first, and more whenever a record is unused.
#[derive(Clone, Copy)]
pub struct Kind {
    base: u64,
    reach: u64,
    longest: u64,
    orders: u64,
    frees: u64,
    is_crowded: bool,
}

pub struct Generator {
    rng: Rng,
    kind: Kind,
}

impl Generator {
    /// The history of a seed.
    pub fn new(seed: u64) -> Generator {
        Generator { rng: Rng(seed), kind: KINDS[seed as usize % KINDS.len()] }
    }

    fn holder(&mut self) -> u64 {
        match self.rng.below(40) {
            0 => self.rng.one_of(&[0, 17, 256, 257, u64::MAX]),
            1..=9 => 1 + self.rng.below(HOLDERS),
            _ => 1 + self.rng.below(3),
        }
    }

    fn address(&mut self) -> u64 {
        self.kind.base + self.rng.below(self.kind.reach)
    }

    fn size(&mut self) -> u64 {
        match self.rng.below(30) {
            0 => self.rng.one_of(&[0, TOP, u64::MAX]),
            _ => 1 + self.rng.below(self.kind.longest),
        }
    }

    fn order(&mut self) -> u64 {
        match self.rng.below(30) {
            0 => self.rng.one_of(&[63, 64, u64::MAX]),
            1..=15 => 0,
            _ => self.rng.below(self.kind.orders),
        }
    }

    /// The call after `made` others.
    pub fn call(&mut self, model: &Model, made: usize) -> Call {
        if self.kind.is_crowded && made < RECORDS {
            return Call::Offer { start: 8 * made as u64 + 1, size: 3 };
        }
        if self.kind.is_crowded && made < RECORDS + 3 {
            return Call::Allocate { holder: self.holder(), size: 1, order: 1 }; // the middle of any range
        }
        if self.kind.is_crowded && !model.is_crowded() && self.rng.below(3) == 0 {
            return Call::Offer { start: self.kind.reach + 16 * made as u64, size: 3 };
        }
        if self.rng.below(100) < self.kind.frees {
            return self.free(model);
        }
        match self.rng.below(7) {
            0..=2 => Call::Offer { start: self.address(), size: self.size() },
            3..=4 => Call::Allocate { holder: self.holder(), size: self.size(), order: self.order() },
            _ => self.reserve(model),
        }
    }

    /// Mostly of bytes that are free.
    fn reserve(&mut self, model: &Model) -> Call {
        let (holder, order) = (self.holder(), self.order());
        let free = model.free();
        if free.is_empty() || self.rng.below(4) == 0 {
            return Call::Reserve { holder, start: self.address(), size: self.size(), order };
        }
        let (first, last) = self.rng.one_of(&free);
        let start = first + self.rng.below((last - first + 1).min(0x4000));
        let size = self.rng.one_of(&[1, last - start + 1, self.kind.longest]).min(last - start + 1);
        Call::Reserve { holder, start, size, order }
    }

    /// Mostly as it was handed out; else a part of it, more than it, or by another.
    fn free(&mut self, model: &Model) -> Call {
        let held = model.held(None);
        if held.is_empty() || self.rng.below(8) == 0 {
            return Call::Free { holder: self.holder(), start: self.address(), size: self.size() };
        }
        let Held { holder, start, last } = self.rng.one_of(&held);
        let size = last - start + 1;
        match self.rng.below(12) {
            0 => Call::Free { holder: self.holder(), start, size },
            1 => Call::Free { holder, start, size: size + 1 },
            2 => Call::Free { holder, start, size: size - 1 },
            3 => Call::Free { holder, start: start + 1, size },
            4 => Call::Offer { start, size },
            _ => Call::Free { holder, start, size },
        }
    }
}
