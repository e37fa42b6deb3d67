//! Calls of a profile, proposed from what is free at the moment. A proposal may lie outside the domain; the caller
//! then asks for another.

use crate::call::{Answer, Call};
use crate::domain::{Model, TOP};
use crate::profile::Profile;
use crate::rng::Rng;

const MOST_HELD: usize = 200;

pub struct Generator {
    profile: &'static Profile,
    rng: Rng,
    opening: Vec<Call>,
    /// Ranges taken by earlier calls, as first and last byte; parts of them may have been freed since.
    held: Vec<(u64, u64)>,
}

impl Generator {
    pub fn new(profile: &'static Profile, mut rng: Rng) -> Generator {
        let opening = opening(profile, &mut rng);
        Generator { profile, rng, opening, held: Vec::new() }
    }

    pub fn history_length(&mut self, most: u64) -> u64 {
        self.opening.len() as u64 + self.rng.between(4, most)
    }

    pub fn propose(&mut self, model: &Model) -> Call {
        if let Some(call) = self.opening.pop() {
            return call;
        }
        if model.ranges.len() < self.profile.keep && self.rng.chance(50) {
            return self.free_beyond_the_last(model);
        }
        let (frees, allocations) = (self.profile.frees, self.profile.allocations);
        match self.rng.below(100) {
            at if at < frees => self.propose_free(model),
            at if at < frees + allocations => self.propose_allocate(model),
            _ => self.propose_reserve(model),
        }
    }

    /// Remembers what an accepted call took.
    pub fn accepted(&mut self, call: Call, answer: Answer) {
        let taken = match (call, answer) {
            (Call::Allocate { size, .. }, Answer::Accepted(address)) => (address, address + size - 1),
            (Call::Reserve { start, size, .. }, Answer::Accepted(_)) => (start, start + size - 1),
            _ => return,
        };
        if self.held.len() == MOST_HELD {
            self.held.clear();
        }
        self.held.push(taken);
    }

    fn propose_free(&mut self, model: &Model) -> Call {
        if self.rng.chance(self.profile.hand_backs) && !self.held.is_empty() {
            let at = self.rng.below(self.held.len() as u64) as usize;
            let (low, high) = self.held.swap_remove(at);
            return self.free_within(low, high, 80);
        }
        match self.rng.below(10) {
            0 if !model.ranges.is_empty() => {
                let range = *self.rng.one_of(&model.ranges);
                self.free_within(range.start, range.end, 20)
            }
            1..=6 => match self.gap(model) {
                Some((low, high)) => self.free_within(low, high, 10),
                None => self.free_anywhere(),
            },
            _ => self.free_anywhere(),
        }
    }

    fn free_anywhere(&mut self) -> Call {
        Call::Free { start: self.profile.address(&mut self.rng), size: self.profile.size(&mut self.rng) }
    }

    fn free_beyond_the_last(&mut self, model: &Model) -> Call {
        let end = model.ranges.last().map_or(0, |range| range.end);
        let start = end + 1 + self.rng.between(1, 4) * self.profile.unit;
        Call::Free { start, size: self.profile.size(&mut self.rng).max(2) }
    }

    fn free_within(&mut self, low: u64, high: u64, whole: u64) -> Call {
        let (start, size) = self.part_of(low, high, whole);
        Call::Free { start, size }
    }

    fn propose_allocate(&mut self, model: &Model) -> Call {
        let unit = self.profile.unit;
        let size = match self.rng.below(20) {
            0 => model.total,
            1 => model.total.saturating_sub(unit),
            2..=6 if !model.ranges.is_empty() => self.rng.one_of(&model.ranges).size(),
            7 if !model.ranges.is_empty() => self.rng.one_of(&model.ranges).size().saturating_sub(unit),
            _ => self.profile.size(&mut self.rng),
        };
        Call::Allocate { size: size.max(1), order: self.profile.order(&mut self.rng) }
    }

    fn propose_reserve(&mut self, model: &Model) -> Call {
        let order = self.profile.order(&mut self.rng);
        let (start, size) = match self.rng.below(20) {
            0..=14 if !model.ranges.is_empty() => {
                let range = *self.rng.one_of(&model.ranges);
                self.part_of(range.start, range.end, 15)
            }
            15 => (self.profile.address(&mut self.rng), model.total.saturating_add(self.profile.unit)),
            _ => match self.gap(model) {
                Some((low, high)) => self.part_of(low, high, 10),
                None => (self.profile.address(&mut self.rng), self.profile.size(&mut self.rng)),
            },
        };
        let order = if self.rng.chance(50) { 0 } else { order };
        Call::Reserve { start, size, order }
    }

    /// A stretch between free ranges, or before the first or after the last.
    fn gap(&mut self, model: &Model) -> Option<(u64, u64)> {
        let at = self.rng.below(model.ranges.len() as u64 + 1) as usize;
        let low = if at == 0 { 0 } else { model.ranges[at - 1].end + 1 };
        let high = model.ranges.get(at).map_or(self.profile.ceiling, |range| range.start);
        (low < high).then(|| (low, high - 1))
    }

    /// Start and size of all (`whole` times in 100), a front, a tail or an inner part of a stretch.
    fn part_of(&mut self, low: u64, high: u64, whole: u64) -> (u64, u64) {
        let room = high - low + 1;
        let size = self.profile.size(&mut self.rng).min(room);
        if self.rng.chance(whole) {
            return (low, room);
        }
        let half = room / 2 / self.profile.unit * self.profile.unit;
        match self.rng.below(4) {
            0 => (low, size),
            1 => (high - size + 1, size),
            2 => (low + half, size.min(room - half)),
            _ => (low + self.rng.below((room - size) / self.profile.unit + 1) * self.profile.unit, size),
        }
    }
}

/// Frees that touch one another nowhere, in an order of chance.
fn opening(profile: &Profile, rng: &mut Rng) -> Vec<Call> {
    let mut calls = Vec::new();
    let mut from = rng.below(3) * profile.unit;
    for _ in 0..rng.between(profile.opening.0, profile.opening.1) {
        let size = profile.size(rng).max(2);
        if from >= TOP - size {
            break;
        }
        calls.push(Call::Free { start: from, size });
        from += size + rng.between(1, 4) * profile.unit;
    }
    for at in (1..calls.len()).rev() {
        calls.swap(at, rng.below(at as u64 + 1) as usize);
    }
    calls
}
