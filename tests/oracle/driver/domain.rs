//! Where the Rust is the judge, decided before a call is played by a model of its own: the free ranges by address,
//! each with the moment at which it was last placed. What document 01 calls the shelf is then the order by size, newest
//! first among equals.

use std::cmp::Reverse;
use std::ops::Range;

use crate::call::{Answer, Call};
use crate::kind::Kind;
use crate::shape::RECORDS;

/// The first address that is none.
pub const TOP: u64 = 1 << 63;
pub const MAX_ORDER: u64 = 63;

#[derive(Clone, Copy)]
pub struct FreeRange {
    pub start: u64,
    pub end: u64,
    placed: u64,
}

#[derive(Clone)]
pub struct Model {
    pub ranges: Vec<FreeRange>,
    pub total: u64,
    clock: u64,
}

/// Why a call leaves the domain.
#[derive(Clone, Copy, PartialEq, Eq, Debug)]
pub enum Outside {
    SizeZero,
    OrderAbove63,
    PastTheTop,
    OneByteRangeMade,
    FreeOverlapsPartly,
    ReservePastARangesEnd,
    /// Document 02's T-03 hands them out, from `address` on for an allocation; the Rust keeps them.
    TakesTheLastBytes {
        kind: Kind,
        address: u64,
    },
    /// All records are used and the first range that fits would be split. Document 02's T-06 takes the bytes from `address` on, out
    /// of the first that would not; the Rust refuses.
    LooksOn {
        kind: Kind,
        address: u64,
    },
}

/// What a call inside the domain does.
pub struct Step {
    pub kind: Kind,
    pub address: u64,
    /// The bytes that the call moves; 0 for a refusal.
    pub moved: u64,
    replaced: Range<usize>,
    pieces: [Option<(u64, u64)>; 2],
}

impl FreeRange {
    pub fn size(&self) -> u64 {
        self.end - self.start + 1
    }

    fn fitting_start(&self, size: u64, order: u64) -> Option<u64> {
        let rounded = round_up(self.start, order);
        (rounded <= self.end && self.end - rounded >= size - 1).then_some(rounded)
    }

    fn is_split_by(&self, start: u64, size: u64) -> bool {
        self.start < start && start + size - 1 < self.end
    }
}

impl Step {
    fn refused(kind: Kind) -> Result<Step, Outside> {
        Ok(Step { kind, address: 0, moved: 0, replaced: 0..0, pieces: [None, None] })
    }

    pub fn answer(&self) -> Answer {
        match self.kind.number() {
            0 => Answer::Accepted(self.address),
            number => Answer::Refused(number),
        }
    }
}

impl Model {
    pub fn new() -> Model {
        Model { ranges: Vec::with_capacity(RECORDS + 1), total: 0, clock: 0 }
    }

    pub fn step(&self, call: Call) -> Result<Step, Outside> {
        let (size, order) = match call {
            Call::Free { size, .. } => (size, 0),
            Call::Allocate { size, order } | Call::Reserve { size, order, .. } => (size, order),
        };
        if size == 0 {
            return Err(Outside::SizeZero);
        }
        if order > MAX_ORDER {
            return Err(Outside::OrderAbove63);
        }
        let start = match call {
            Call::Free { start, .. } | Call::Reserve { start, .. } => start,
            Call::Allocate { .. } => 0,
        };
        if start > TOP || size > TOP - start {
            return Err(Outside::PastTheTop);
        }
        match call {
            Call::Free { start, size } => self.free(start, start + size - 1),
            Call::Allocate { size, order } => self.allocate(size, order),
            Call::Reserve { start, size, order } => self.reserve(start, size, order),
        }
    }

    pub fn apply(&mut self, call: Call, step: &Step) {
        if step.kind.number() != 0 {
            return;
        }
        match call {
            Call::Free { .. } => self.total += step.moved,
            _ => self.total -= step.moved,
        }
        let clock = self.clock;
        let pieces = step.pieces.iter().flatten().zip(1..);
        let placed = pieces.map(|(&(start, end), moment)| FreeRange { start, end, placed: clock + moment });
        self.ranges.splice(step.replaced.clone(), placed);
        self.clock += 2;
    }

    /// The first range that ends at `address` or later.
    pub fn index_from(&self, address: u64) -> usize {
        self.ranges.partition_point(|range| range.end < address)
    }

    fn free(&self, start: u64, end: u64) -> Result<Step, Outside> {
        let at = self.index_from(start);
        if let Some(range) = self.ranges.get(at).filter(|range| range.start <= end) {
            let inside = range.start <= start && end <= range.end;
            return if inside { Step::refused(Kind::FreeOfFreeBytes) } else { Err(Outside::FreeOverlapsPartly) };
        }
        let lower = at.checked_sub(1).map(|below| self.ranges[below]).filter(|range| range.end + 1 == start);
        let upper = self.ranges.get(at).filter(|range| range.start == end + 1);
        let kind = match (lower, upper) {
            (None, None) if self.ranges.len() == RECORDS => return Step::refused(Kind::FreeWithoutRecord),
            (None, None) if start == end => return Err(Outside::OneByteRangeMade),
            (None, None) => Kind::FreeApart,
            (Some(_), None) => Kind::FreeAfterLower,
            (None, Some(_)) => Kind::FreeBeforeUpper,
            (Some(_), Some(_)) => Kind::FreeBetween,
        };
        let joined = (lower.map_or(start, |range| range.start), upper.map_or(end, |range| range.end));
        let replaced = at - lower.is_some() as usize..at + upper.is_some() as usize;
        Ok(Step { kind, address: 0, moved: end - start + 1, replaced, pieces: [Some(joined), None] })
    }

    fn allocate(&self, size: u64, order: u64) -> Result<Step, Outside> {
        if size > self.total {
            return Step::refused(Kind::AllocateOverTotal);
        }
        let fitting = self.ranges.iter().enumerate().filter_map(|(at, range)| {
            range.fitting_start(size, order).map(|address| (range.size(), Reverse(range.placed), at, address))
        });
        let (at, address) = match fitting.clone().min() {
            Some((_, _, at, address)) => (at, address),
            None => return Step::refused(Kind::AllocateWithoutFit),
        };
        if size == self.total {
            return Err(Outside::TakesTheLastBytes { kind: Kind::AllocateOfLastBytes, address });
        }
        let kinds = [Kind::AllocateWhole, Kind::AllocateFront, Kind::AllocateTail, Kind::AllocateMiddle];
        let step = self.take(at, address, address + size - 1, kinds, Kind::AllocateWithoutRecord)?;
        if step.kind.number() == 0 {
            return Ok(Step { address, ..step });
        }
        match fitting.filter(|&(.., at, address)| !self.ranges[at].is_split_by(address, size)).min() {
            None => Ok(step),
            Some((.., at, address)) => {
                self.take(at, address, address + size - 1, kinds, Kind::AllocateWithoutRecord)?;
                Err(Outside::LooksOn { kind: Kind::AllocateFurtherOn, address })
            }
        }
    }

    fn reserve(&self, start: u64, size: u64, order: u64) -> Result<Step, Outside> {
        let low = start & !below(order);
        let high = round_up(start + size, order) - 1;
        let at = self.index_from(low);
        let holder = self.ranges.get(at).filter(|range| range.start <= low);
        if matches!(holder, Some(range) if high > range.end) {
            return Err(Outside::ReservePastARangesEnd);
        }
        if size > self.total {
            return Step::refused(Kind::ReserveOverTotal);
        }
        if high - low >= self.total {
            return Step::refused(Kind::ReserveWidenedOverTotal);
        }
        let range = match holder {
            Some(range) => range,
            None => return Step::refused(Kind::ReserveOfUsedBytes),
        };
        if self.ranges.len() == 1 && (low, high) == (range.start, range.end) {
            return Err(Outside::TakesTheLastBytes { kind: Kind::ReserveOfLastBytes, address: 0 });
        }
        let kinds = [Kind::ReserveWhole, Kind::ReserveFront, Kind::ReserveTail, Kind::ReserveMiddle];
        self.take(at, low, high, kinds, Kind::ReserveWithoutRecord)
    }

    /// Bytes `start` to `end` leave the range at `at`. `kinds`: the whole range, its front, its tail, its middle.
    fn take(&self, at: usize, start: u64, end: u64, kinds: [Kind; 4], no_record: Kind) -> Result<Step, Outside> {
        let range = self.ranges[at];
        let low = (range.start < start).then(|| (range.start, start - 1));
        let high = (end < range.end).then(|| (end + 1, range.end));
        let kind = match (low, high) {
            (None, None) => kinds[0],
            (None, Some(_)) => kinds[1],
            (Some(_), None) => kinds[2],
            (Some(_), Some(_)) if self.ranges.len() == RECORDS => return Step::refused(no_record),
            (Some(_), Some(_)) => kinds[3],
        };
        let pieces = [low, high];
        if pieces.iter().flatten().any(|(first, last)| first == last) {
            return Err(Outside::OneByteRangeMade);
        }
        Ok(Step { kind, address: 0, moved: end - start + 1, replaced: at..at + 1, pieces })
    }
}

/// The bits below `order`.
fn below(order: u64) -> u64 {
    (1 << order) - 1
}

/// At most 2^63 for an address below 2^63 and an order up to 63.
fn round_up(address: u64, order: u64) -> u64 {
    (address + below(order)) & !below(order)
}
