//! Every short history over few addresses. Histories that lead to the same state of all players are continued once.

use std::collections::HashSet;

use crate::broken::Breakage;
use crate::call::Call;
use crate::compare::{Played, Players};
use crate::domain::MAX_ORDER;
use crate::shape::RECORDS;
use crate::shrink::{shrink, Mismatch};
use crate::tally::Tally;

pub struct Exhaustive {
    /// Starts and sizes are multiples of 2^`unit_order`; with 12 they meet the limits of the size lists.
    pub unit_order: u64,
    /// Below so many units.
    pub addresses: u64,
    pub depth: usize,
    pub breakage: Option<Breakage>,
}

impl Exhaustive {
    /// `depth` calls from the empty allocator; one call less from states with two, one and no records left.
    pub fn run(&self, tally: &mut Tally) -> Result<(), Mismatch> {
        self.run_from(&[], self.depth, tally)?;
        for left in [2, 1, 0] {
            let crowded: Vec<Call> = (left..RECORDS as u64).map(|number| far_range(self.unit_order, number)).collect();
            self.run_from(&crowded, self.depth - 1, tally)?;
        }
        Ok(())
    }

    fn run_from(&self, opening: &[Call], depth: usize, tally: &mut Tally) -> Result<(), Mismatch> {
        let calls = self.calls();
        let mut met = HashSet::new();
        let mut level = vec![opening.to_vec()];
        for reached in 1..=depth {
            let mut next_level = Vec::new();
            for history in &level {
                let players = self.replay(history)?;
                for &call in &calls {
                    let mut branch = players.copy();
                    let is_new = self.play(&mut branch, history, call, tally)? && reached < depth;
                    if is_new && met.insert(branch.bench.fingerprint()) {
                        next_level.push([history, &[call][..]].concat());
                    }
                }
            }
            let (unit, opened, states) = (1 << self.unit_order, opening.len(), level.len());
            let place = format!("unit {unit}, {opened} ranges at first, call {reached}");
            eprintln!("exhaustive: {place}: {states} states, {} calls compared", tally.calls);
            level = next_level;
        }
        Ok(())
    }

    /// Whether the call was accepted, so that the state is another.
    fn play(&self, branch: &mut Players, history: &[Call], call: Call, tally: &mut Tally) -> Result<bool, Mismatch> {
        match branch.play(call) {
            Played::Outside(why) => {
                tally.count_outside(call, why);
                Ok(false)
            }
            Played::Agreed { kind, answer, with_untouched } => {
                tally.count(call, kind, with_untouched);
                Ok(answer.is_accepted())
            }
            Played::Mismatch(difference) => {
                let history = [history, &[call]].concat();
                Err(shrink(Mismatch { history, difference }, self.breakage))
            }
        }
    }

    fn replay(&self, history: &[Call]) -> Result<Players, Mismatch> {
        let mut players = Players::new(self.breakage);
        for (at, &call) in history.iter().enumerate() {
            match players.play(call) {
                Played::Agreed { .. } => {}
                Played::Outside(why) => panic!("`{call}` of an opening leaves the domain: {why:?}"),
                Played::Mismatch(difference) => {
                    let history = history[..=at].to_vec();
                    return Err(shrink(Mismatch { history, difference }, self.breakage));
                }
            }
        }
        Ok(players)
    }

    /// Every free, allocate and reserve over the addresses; orders 0, those that tell some of them apart, and 63.
    fn calls(&self) -> Vec<Call> {
        let mut calls = Vec::new();
        let highest_bit = (u64::BITS - 1 - self.addresses.leading_zeros()) as u64;
        let telling = (1..=highest_bit).map(|order| self.unit_order + order);
        let orders: Vec<u64> = [0].into_iter().chain(telling).chain([MAX_ORDER]).collect();
        let unit = 1 << self.unit_order;
        for start in 0..self.addresses {
            for size in 1..=self.addresses - start {
                let (start, size) = (start * unit, size * unit);
                calls.push(Call::Free { start, size });
                calls.extend(orders.iter().map(|&order| Call::Reserve { start, size, order }));
            }
        }
        for size in 1..=self.addresses {
            calls.extend(orders.iter().map(|&order| Call::Allocate { size: size * unit, order }));
        }
        calls
    }
}

/// Ranges above the addresses that are tried, apart from one another, three sizes in turn.
fn far_range(unit_order: u64, number: u64) -> Call {
    Call::Free { start: (1025 + 16 * number) << unit_order, size: (4 + 2 * (number % 3)) << unit_order }
}
