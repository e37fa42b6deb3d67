//! The free ranges: one, and all of them by address, as a proved listing has written them.

use core::fmt;
use core::iter::FusedIterator;
use core::ops::RangeInclusive;

use crate::calls::{self, RECORDS};
use crate::MemoryError;

/// One free range, of at least one byte. Ranges are ordered by address.
#[derive(Clone, Copy, PartialEq, Eq, PartialOrd, Ord, Hash)]
pub struct FreeRange {
    /// Its first byte.
    pub start: usize,
    /// Its last byte.
    pub last: usize,
}

impl FreeRange {
    /// The number of its bytes.
    ///
    /// ```
    /// assert_eq!(cinghjalofa::FreeRange { start: 0x2000, last: 0x2fff }.size(), 0x1000);
    /// ```
    pub const fn size(&self) -> usize {
        self.last.wrapping_sub(self.start).wrapping_add(1)
    }

    /// Whether the byte at this address is one of them.
    ///
    /// ```
    /// let range = cinghjalofa::FreeRange { start: 0x2000, last: 0x2fff };
    /// assert!(range.contains(0x2000) && range.contains(0x2fff) && !range.contains(0x3000));
    /// ```
    pub const fn contains(&self, address: usize) -> bool {
        self.start <= address && address <= self.last
    }
}

impl From<FreeRange> for RangeInclusive<usize> {
    fn from(range: FreeRange) -> Self {
        range.start..=range.last
    }
}

/// With its addresses in hexadecimal.
impl fmt::Debug for FreeRange {
    fn fmt(&self, f: &mut fmt::Formatter<'_>) -> fmt::Result {
        write!(f, "{:#x}..={:#x}", self.start, self.last)
    }
}

/// The free ranges by address, at the moment when they were asked for: the allocator may be used while one goes through them.
/// There are none of a state that is not sound.
///
/// It has room for as many ranges as there can be, two numbers each. Where the stack is short, `listing` writes them to slices.
#[derive(Clone)]
pub struct FreeRanges {
    starts: [u64; RECORDS],
    lasts: [u64; RECORDS],
    /// Those that are left: from the first place to before the second.
    at: usize,
    end: usize,
}

impl FreeRanges {
    /// What a call that lists them writes and answers.
    pub(crate) fn of(list: impl FnOnce(&mut [u64], &mut [u64]) -> i64) -> Self {
        let mut all = Self { starts: [0; RECORDS], lasts: [0; RECORDS], at: 0, end: 0 };
        all.end = calls::result_of(list(&mut all.starts, &mut all.lasts)).unwrap_or(0);
        all
    }

    fn range(&self, place: usize) -> Option<FreeRange> {
        Some(FreeRange { start: *self.starts.get(place)? as usize, last: *self.lasts.get(place)? as usize })
    }
}

impl Iterator for FreeRanges {
    type Item = FreeRange;

    fn next(&mut self) -> Option<FreeRange> {
        if self.at >= self.end {
            return None;
        }
        let range = self.range(self.at);
        self.at = self.at.wrapping_add(1);
        range
    }

    fn size_hint(&self) -> (usize, Option<usize>) {
        let left = self.end.saturating_sub(self.at);
        (left, Some(left))
    }
}

impl DoubleEndedIterator for FreeRanges {
    fn next_back(&mut self) -> Option<FreeRange> {
        if self.at >= self.end {
            return None;
        }
        self.end = self.end.wrapping_sub(1);
        self.range(self.end)
    }
}

impl ExactSizeIterator for FreeRanges {}

impl FusedIterator for FreeRanges {}

impl fmt::Debug for FreeRanges {
    fn fmt(&self, f: &mut fmt::Formatter<'_>) -> fmt::Result {
        f.debug_list().entries(self.clone()).finish()
    }
}

/// Lends the slices as the 64-bit numbers that they are, to a call that lists: it writes all or, where one is too short, nothing.
pub(crate) fn listing(
    starts: &mut [usize],
    lasts: &mut [usize],
    list: impl FnOnce(&mut [u64], &mut [u64]) -> i64,
) -> Result<usize, MemoryError> {
    // SAFETY: a `usize` has 64 bits here (lib.rs refuses other targets), so that it and a `u64` are the same bytes; any number may
    // be written. Both borrows last as long as the slices made of them.
    let (starts, lasts) = unsafe {
        let lasts = core::slice::from_raw_parts_mut(lasts.as_mut_ptr().cast::<u64>(), lasts.len());
        (core::slice::from_raw_parts_mut(starts.as_mut_ptr().cast::<u64>(), starts.len()), lasts)
    };
    calls::result_of(list(starts, lasts))
}
