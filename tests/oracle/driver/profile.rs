//! The kinds of history that random runs go through in turn.

use crate::domain::{MAX_ORDER, TOP};
use crate::rng::Rng;

pub enum Sizes {
    UpTo(u64),
    OneOf(&'static [u64]),
    /// Around the limits of the size lists: 4096 * 2^k and one byte to either side.
    AroundListLimits,
    AnyMagnitude(u64),
}

pub enum Orders {
    OneOf(&'static [u64]),
    UpTo(u64),
}

pub struct Profile {
    pub name: &'static str,
    /// Starts and sizes are multiples of it.
    pub unit: u64,
    /// All addresses lie below.
    pub ceiling: u64,
    pub sizes: Sizes,
    pub orders: Orders,
    /// The least and the greatest number of ranges that are freed, apart from one another, before all else.
    pub opening: (u64, u64),
    /// As long as fewer ranges are free, another is often freed beyond the last.
    pub keep: usize,
    /// In 100 calls; what is left over are reserves.
    pub frees: u64,
    pub allocations: u64,
    /// In 100 frees, those that give back what was taken.
    pub hand_backs: u64,
}

const MOSTLY_UNALIGNED: Orders = Orders::OneOf(&[0, 0, 0, 1, 2, 3, 6, 12]);

#[rustfmt::skip] // a table: a profile in two lines
pub const PROFILES: &[Profile] = &[
    Profile {
        name: "pages", unit: 4096, ceiling: 1 << 20, sizes: Sizes::UpTo(16), opening: (0, 4), keep: 0,
        orders: Orders::OneOf(&[0, 0, 0, 12, 12, 13, 14, 16]), frees: 45, allocations: 35, hand_backs: 40,
    },
    Profile {
        name: "odd", unit: 1, ceiling: 1 << 16, sizes: Sizes::UpTo(5000), opening: (0, 4), keep: 0,
        orders: Orders::UpTo(14), frees: 45, allocations: 35, hand_backs: 30,
    },
    Profile {
        name: "tiny", unit: 1, ceiling: 64, sizes: Sizes::UpTo(9), opening: (0, 3), keep: 0,
        orders: Orders::UpTo(6), frees: 45, allocations: 30, hand_backs: 30,
    },
    Profile {
        name: "huge", unit: 1, ceiling: TOP, sizes: Sizes::AnyMagnitude(63), opening: (0, 2), keep: 0,
        orders: Orders::UpTo(MAX_ORDER), frees: 45, allocations: 30, hand_backs: 30,
    },
    Profile {
        name: "crowded", unit: 1, ceiling: 1 << 16, sizes: Sizes::UpTo(60), opening: (250, 256), keep: 256,
        orders: MOSTLY_UNALIGNED, frees: 50, allocations: 25, hand_backs: 20,
    },
    Profile {
        name: "orders", unit: 1, ceiling: TOP, sizes: Sizes::AnyMagnitude(30), opening: (2, 30), keep: 0,
        orders: Orders::UpTo(MAX_ORDER), frees: 40, allocations: 40, hand_backs: 20,
    },
    Profile {
        name: "equals", unit: 4096, ceiling: 1 << 20, sizes: Sizes::OneOf(&[1, 1, 2]), opening: (0, 40), keep: 0,
        orders: Orders::OneOf(&[0, 0, 13]), frees: 50, allocations: 25, hand_backs: 50,
    },
    Profile {
        name: "lists", unit: 1, ceiling: 1 << 28, sizes: Sizes::AroundListLimits, opening: (4, 30), keep: 0,
        orders: MOSTLY_UNALIGNED, frees: 45, allocations: 35, hand_backs: 30,
    },
    Profile {
        name: "hand-backs", unit: 1, ceiling: 1 << 18, sizes: Sizes::UpTo(3000), opening: (1, 3), keep: 0,
        orders: MOSTLY_UNALIGNED, frees: 48, allocations: 32, hand_backs: 95,
    },
];

impl Profile {
    pub fn size(&self, rng: &mut Rng) -> u64 {
        match self.sizes {
            Sizes::UpTo(most) => rng.between(1, most) * self.unit,
            Sizes::OneOf(sizes) => rng.one_of(sizes) * self.unit,
            Sizes::AroundListLimits => (4096 << rng.below(13)) + rng.below(3) - 1,
            Sizes::AnyMagnitude(bits) => rng.any_magnitude(bits),
        }
    }

    pub fn order(&self, rng: &mut Rng) -> u64 {
        match self.orders {
            Orders::OneOf(orders) => *rng.one_of(orders),
            Orders::UpTo(_) if rng.chance(25) => 0,
            Orders::UpTo(most) => rng.between(0, most),
        }
    }

    pub fn address(&self, rng: &mut Rng) -> u64 {
        let anywhere = rng.below(self.ceiling);
        let address = match rng.below(4) {
            0 => self.ceiling - 1 - (rng.any_magnitude(63) - 1).min(anywhere),
            1 => (rng.any_magnitude(63) - 1).min(anywhere),
            _ => anywhere,
        };
        address / self.unit * self.unit
    }
}
