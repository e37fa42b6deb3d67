//! A long history inside the domain that keeps about a given number of ranges free.

use crate::call::{Answer, Call};
use crate::contenders::as_number;
use crate::domain::Model;
use crate::library::{ALLOCATE, CALL_WORDS, FREE, RESERVE};
use crate::rng::Rng;

const PAGE: u64 = 4096;
const PAGE_ORDER: u64 = 12;
const CEILING: u64 = 1 << 30;
const MOST_PAGES: u64 = 16;
/// How far from the wanted number of ranges the history may wander.
pub const SLACK: usize = 1;
/// In 100 calls that would be refused, those that are made nevertheless.
const REFUSALS_KEPT: u64 = 3;

pub struct Workload {
    /// Frees that bring an empty allocator to the wanted number of ranges.
    pub opening: History,
    pub history: History,
    /// What document 01 answers to the history, refusal numbers included.
    pub answers: Vec<i64>,
}

/// Calls, and the same in words, which are made beforehand: to write them is the caller's work.
pub struct History {
    pub calls: Vec<Call>,
    pub words: Vec<u64>,
}

/// A part of a history.
#[derive(Clone, Copy)]
pub struct Stretch<'a> {
    pub calls: &'a [Call],
    pub words: &'a [u64],
}

impl History {
    fn of(calls: Vec<Call>) -> History {
        let words = calls.iter().flat_map(|&call| in_words(call)).collect();
        History { calls, words }
    }

    /// All of it.
    pub fn whole(&self) -> Stretch<'_> {
        Stretch { calls: &self.calls, words: &self.words }
    }

    /// Its stretches of so many calls.
    pub fn stretches(&self, length: usize) -> impl Iterator<Item = Stretch<'_>> {
        let words = self.words.chunks(length * CALL_WORDS);
        self.calls.chunks(length).zip(words).map(|(calls, words)| Stretch { calls, words })
    }
}

fn in_words(call: Call) -> [u64; CALL_WORDS] {
    match call {
        Call::Free { start, size } => [FREE, start, size, 0],
        Call::Allocate { size, order } => [ALLOCATE, size, order, 0],
        Call::Reserve { start, size, order } => [RESERVE, start, size, order],
    }
}

struct Builder {
    wanted: usize,
    rng: Rng,
    model: Model,
    /// Address and size of what is taken and not yet given back.
    held: Vec<(u64, u64)>,
}

impl Workload {
    /// The everyday pair: a page allocated, and freed at once.
    pub fn pairs(ranges: usize, length: usize) -> Workload {
        let mut builder = Builder::around(ranges);
        let opening = History::of(builder.opening());
        let (mut calls, mut answers) = (Vec::new(), Vec::new());
        while calls.len() + 2 <= length {
            let taken = Call::Allocate { size: PAGE, order: PAGE_ORDER };
            let answer = builder.play(taken);
            let Answer::Accepted(start) = answer else { unreachable!("a page was refused: {answer:?}") };
            let freed = Call::Free { start, size: PAGE };
            answers.extend([as_number(answer), as_number(builder.play(freed))]);
            calls.extend([taken, freed]);
        }
        Workload { opening, history: History::of(calls), answers }
    }

    pub fn around(ranges: usize, length: usize) -> Workload {
        let mut builder = Builder::around(ranges);
        let opening = History::of(builder.opening());
        let (mut calls, mut answers) = (Vec::new(), Vec::new());
        while calls.len() < length {
            let call = builder.next_call();
            answers.push(as_number(builder.play(call)));
            calls.push(call);
        }
        Workload { opening, history: History::of(calls), answers }
    }
}

impl Builder {
    fn around(ranges: usize) -> Builder {
        Builder { wanted: ranges, rng: Rng::for_history(1, ranges as u64), model: Model::new(), held: Vec::new() }
    }

    /// As many ranges of 16 to 31 pages as are wanted, far apart.
    fn opening(&mut self) -> Vec<Call> {
        let stride = CEILING / self.wanted as u64 / PAGE * PAGE;
        let mut calls = Vec::new();
        for at in 0..self.wanted as u64 {
            let call = Call::Free { start: at * stride, size: self.pages(16, 31) };
            self.play(call);
            calls.push(call);
        }
        calls
    }

    /// A call inside the domain, seldom a refused one, that keeps the number of ranges near the wanted one.
    fn next_call(&mut self) -> Call {
        loop {
            let call = self.propose();
            let step = match self.model.step(call) {
                Ok(step) => step,
                Err(_) => continue,
            };
            if !step.answer().is_accepted() && !self.rng.chance(REFUSALS_KEPT) {
                continue;
            }
            let mut after = self.model.clone();
            after.apply(call, &step);
            if after.ranges.len().abs_diff(self.wanted) <= SLACK {
                return call;
            }
        }
    }

    fn propose(&mut self) -> Call {
        match self.rng.below(20) {
            0..=8 => Call::Allocate { size: self.pages(1, MOST_PAGES), order: *self.rng.one_of(&[0, 0, 12, 13, 14]) },
            9 | 10 if !self.model.ranges.is_empty() => {
                let range = *self.rng.one_of(&self.model.ranges);
                let inside = self.rng.below(range.size() / PAGE) * PAGE;
                Call::Reserve { start: range.start + inside, size: PAGE, order: 12 }
            }
            11..=18 if !self.held.is_empty() => {
                let &(start, size) = self.rng.one_of(&self.held);
                Call::Free { start, size }
            }
            _ => Call::Free { start: self.rng.below(CEILING / PAGE) * PAGE, size: self.pages(16, 31) },
        }
    }

    fn pages(&mut self, least: u64, most: u64) -> u64 {
        self.rng.between(least, most) * PAGE
    }

    fn play(&mut self, call: Call) -> Answer {
        let step = match self.model.step(call) {
            Ok(step) => step,
            Err(why) => unreachable!("{call} was proposed outside the domain: {why:?}"),
        };
        self.model.apply(call, &step);
        match (call, step.answer()) {
            (Call::Free { start, .. }, Answer::Accepted(_)) => self.held.retain(|&(held, _)| held != start),
            (Call::Allocate { size, .. }, Answer::Accepted(address)) => self.held.push((address, size)),
            (Call::Reserve { start, size, .. }, Answer::Accepted(_)) => self.held.push((start, size)),
            _ => {}
        }
        step.answer()
    }
}
