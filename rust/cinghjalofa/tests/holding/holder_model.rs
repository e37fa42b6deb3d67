//! A plain model of request T-07, of ranges in lists, which knows neither records nor links: what each call answers, and which ranges are
//! free and held afterwards.

#![allow(dead_code)] // each program uses a part

use std::cmp::Reverse;

/// The first address that is none.
pub const TOP: u64 = 1 << 63;
pub const HOLDERS: u64 = 16;
/// Of the real thing.
pub const RECORDS: usize = 256;
pub const ENTRIES: usize = 64;

#[derive(Clone, Copy, PartialEq, Eq, Debug)]
pub enum Call {
    Offer { start: u64, size: u64 },
    Allocate { holder: u64, size: u64, order: u64 },
    Reserve { holder: u64, start: u64, size: u64, order: u64 },
    Free { holder: u64, start: u64, size: u64 },
}

impl Call {
    /// A line of the table, or of the script.
    pub fn of(letter: char, numbers: &[u64]) -> Option<Call> {
        match (letter, numbers) {
            ('o', &[start, size]) => Some(Call::Offer { start, size }),
            ('a', &[holder, size, order]) => Some(Call::Allocate { holder, size, order }),
            ('r', &[holder, start, size, order]) => Some(Call::Reserve { holder, start, size, order }),
            ('f', &[holder, start, size]) => Some(Call::Free { holder, start, size }),
            _ => None,
        }
    }

    pub fn letter(&self) -> char {
        match self {
            Call::Offer { .. } => 'o',
            Call::Allocate { .. } => 'a',
            Call::Reserve { .. } => 'r',
            Call::Free { .. } => 'f',
        }
    }
}

/// First and last byte.
pub type Piece = (u64, u64);

#[derive(Clone, Copy, PartialEq, Eq, Debug)]
pub struct Held {
    pub holder: u64,
    pub start: u64,
    pub last: u64,
}

/// A free range, and the moment at which it got its size.
#[derive(Clone, Copy)]
struct Range {
    start: u64,
    last: u64,
    placed: u64,
}

#[derive(Clone)]
pub struct Model {
    records: usize,
    /// By address.
    free: Vec<Range>,
    pub entries: Vec<Option<Held>>,
    clock: u64,
}

impl Range {
    fn size(&self) -> u64 {
        self.last - self.start + 1
    }

    /// The piece of this size at the first multiple of 2^order in it.
    fn fitting(&self, size: u64, order: u64) -> Option<Piece> {
        let start = round_up(self.start.into(), order);
        let last = start + u128::from(size) - 1;
        (last <= self.last.into()).then_some((start as u64, last as u64))
    }

    fn has(&self, piece: Piece) -> bool {
        self.start <= piece.0 && piece.1 <= self.last
    }

    fn is_split_by(&self, piece: Piece) -> bool {
        self.start < piece.0 && piece.1 < self.last
    }
}

impl Model {
    pub fn new(records: usize, entries: usize) -> Model {
        Model { records, free: Vec::new(), entries: vec![None; entries], clock: 0 }
    }

    pub fn total(&self) -> u64 {
        self.free.iter().map(Range::size).sum()
    }

    pub fn free(&self) -> Vec<Piece> {
        self.free.iter().map(|range| (range.start, range.last)).collect()
    }

    /// What is held, by address; by one, or by all.
    pub fn held(&self, holder: Option<u64>) -> Vec<Held> {
        let all = self.entries.iter().flatten().copied();
        let mut held: Vec<Held> = all.filter(|entry| holder.map_or(true, |one| one == entry.holder)).collect();
        held.sort_by_key(|entry| entry.start);
        held
    }

    /// Whether each record is used.
    pub fn is_crowded(&self) -> bool {
        self.free.len() == self.records
    }

    /// The answer: an address or 0, or minus the refusal, which changes nothing.
    pub fn play(&mut self, call: Call) -> i64 {
        self.step(call).unwrap_or_else(|refusal| -refusal)
    }

    fn step(&mut self, call: Call) -> Result<i64, i64> {
        match call {
            Call::Offer { start, size } => {
                let piece = self.unfree(start, size)?;
                refuse(self.entries.iter().flatten().any(|entry| overlap((entry.start, entry.last), piece)), 5)?;
                self.join(piece)?;
                Ok(0)
            }
            Call::Free { holder, start, size } => {
                refuse(!is_holder(holder), 4)?;
                let (start, last) = self.unfree(start, size)?;
                let exactly = Some(Held { holder, start, last });
                let number = self.entries.iter().position(|entry| *entry == exactly).ok_or(5)?;
                self.join((start, last))?;
                self.entries[number] = None;
                Ok(0)
            }
            Call::Allocate { holder, size, order } => {
                refuse(!is_holder(holder), 4)?;
                let (at, piece) = self.found(size, order)?;
                self.take(holder, at, piece)?;
                Ok(piece.0 as i64)
            }
            Call::Reserve { holder, start, size, order } => {
                refuse(!is_holder(holder), 4)?;
                let (at, piece) = self.named(start, size, order)?;
                self.take(holder, at, piece)?;
                Ok(0)
            }
        }
    }

    /// The bytes of an offer or a free, of which none may be free.
    fn unfree(&self, start: u64, size: u64) -> Result<Piece, i64> {
        refuse(size == 0 || u128::from(start) + u128::from(size) > TOP.into(), 4)?;
        let piece = (start, start + (size - 1));
        refuse(self.free.iter().any(|range| overlap((range.start, range.last), piece)), 4)?;
        Ok(piece)
    }

    /// They become free, and join what they touch.
    fn join(&mut self, (start, last): Piece) -> Result<(), i64> {
        let touches = |range: &Range| range.last + 1 == start || last + 1 == range.start;
        let touched: Vec<Range> = self.free.iter().copied().filter(touches).collect();
        refuse(touched.is_empty() && self.is_crowded(), 1)?;
        let start = touched.iter().map(|range| range.start).min().unwrap_or(start).min(start);
        let last = touched.iter().map(|range| range.last).max().unwrap_or(last).max(last);
        self.free.retain(|range| !touches_any(&touched, range));
        self.place((start, last));
        Ok(())
    }

    /// Where an allocation takes its bytes: of the ranges that fit the smallest, of equal ones the newest; one that would fall into two
    /// is passed over where all records are used.
    fn found(&self, size: u64, order: u64) -> Result<(usize, Piece), i64> {
        refuse(size == 0 || order > 63, 4)?;
        refuse(size > self.total(), 3)?;
        let by_size = |&(at, _): &(usize, Piece)| (self.free[at].size(), Reverse(self.free[at].placed));
        let fitting = self.free.iter().enumerate();
        let mut fitting: Vec<(usize, Piece)> =
            fitting.filter_map(|(at, range)| Some((at, range.fitting(size, order)?))).collect();
        fitting.sort_by_key(by_size);
        refuse(fitting.is_empty(), 3)?;
        let served = fitting.into_iter().find(|&(at, piece)| !self.is_crowded() || !self.free[at].is_split_by(piece));
        served.ok_or(1)
    }

    /// Where a reserve takes its bytes.
    fn named(&self, start: u64, size: u64, order: u64) -> Result<(usize, Piece), i64> {
        refuse(size == 0 || order > 63, 4)?;
        refuse(size > self.total(), 3)?;
        let end = u128::from(start) + u128::from(size);
        refuse(end > TOP.into(), 4)?;
        let (start, end) = (start >> order << order, round_up(end, order));
        refuse(end - u128::from(start) > self.total().into(), 3)?;
        let piece = (start, (end - 1) as u64);
        let at = self.free.iter().position(|range| range.has(piece)).ok_or(4)?;
        refuse(self.is_crowded() && self.free[at].is_split_by(piece), 1)?;
        Ok((at, piece))
    }

    /// The piece goes from the free range into the lowest unused entry.
    fn take(&mut self, holder: u64, at: usize, piece: Piece) -> Result<(), i64> {
        let number = self.entries.iter().position(Option::is_none).ok_or(6)?;
        self.entries[number] = Some(Held { holder, start: piece.0, last: piece.1 });
        let range = self.free.remove(at);
        if range.start < piece.0 {
            self.place((range.start, piece.0 - 1));
        }
        if piece.1 < range.last {
            self.place((piece.1 + 1, range.last));
        }
        Ok(())
    }

    fn place(&mut self, (start, last): Piece) {
        self.clock += 1;
        let at = self.free.partition_point(|range| range.start < start);
        self.free.insert(at, Range { start, last, placed: self.clock });
    }
}

fn refuse(applies: bool, number: i64) -> Result<(), i64> {
    if applies {
        return Err(number);
    }
    Ok(())
}

pub fn is_holder(number: u64) -> bool {
    (1..=HOLDERS).contains(&number)
}

pub fn overlap(one: Piece, other: Piece) -> bool {
    one.0 <= other.1 && other.0 <= one.1
}

fn touches_any(touched: &[Range], range: &Range) -> bool {
    touched.iter().any(|other| other.start == range.start)
}

fn round_up(number: u128, order: u64) -> u128 {
    (number + (1 << order) - 1) >> order << order
}
