//! Numbers that look random and repeat from their seed (splitmix64).

pub struct Rng(u64);

impl Rng {
    /// The stream of one history of a run.
    pub fn for_history(seed: u64, history: u64) -> Rng {
        let mut mixed = Rng(seed);
        Rng(mixed.next() ^ history.wrapping_mul(0xd6e8_feb8_6659_fd93))
    }

    pub fn next(&mut self) -> u64 {
        self.0 = self.0.wrapping_add(0x9e37_79b9_7f4a_7c15);
        let mut mixed = self.0;
        mixed = (mixed ^ (mixed >> 30)).wrapping_mul(0xbf58_476d_1ce4_e5b9);
        mixed = (mixed ^ (mixed >> 27)).wrapping_mul(0x94d0_49bb_1331_11eb);
        mixed ^ (mixed >> 31)
    }

    /// From 0 to `limit` - 1; 0 for a limit of 0.
    pub fn below(&mut self, limit: u64) -> u64 {
        ((self.next() as u128 * limit as u128) >> 64) as u64
    }

    pub fn between(&mut self, least: u64, most: u64) -> u64 {
        least + self.below(most - least + 1)
    }

    /// Every number of binary digits up to `bits` is equally likely.
    pub fn any_magnitude(&mut self, bits: u64) -> u64 {
        let digits = self.between(1, bits);
        (1 << (digits - 1)) + self.below(1 << (digits - 1))
    }

    pub fn one_of<'a, T>(&mut self, items: &'a [T]) -> &'a T {
        &items[self.below(items.len() as u64) as usize]
    }

    pub fn chance(&mut self, percent: u64) -> bool {
        self.below(100) < percent
    }
}
