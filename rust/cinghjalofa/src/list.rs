//! Many calls at a time: a call and an answer as the library lays them out, so that slices of them are lent as they are.

use crate::calls;
use crate::MemoryError;

/// One call of a list for [`MemoryAllocator::serve`](crate::MemoryAllocator::serve).
#[derive(Clone, Copy, PartialEq, Eq, Hash)]
#[repr(transparent)]
pub struct Call([u64; calls::CALL_WORDS]);

/// The answer to one call of a list. The default stands for no answer yet and reads as `Ok(0)`: look first at what `serve` answers.
#[derive(Clone, Copy, PartialEq, Eq, Hash, Default)]
#[repr(transparent)]
pub struct CallAnswer(i64);

impl Call {
    /// What [`MemoryAllocator::free`](crate::MemoryAllocator::free) does.
    pub const fn free(start: usize, size: usize) -> Self {
        Self([calls::FREE, start as u64, size as u64, 0])
    }

    /// What [`MemoryAllocator::allocate`](crate::MemoryAllocator::allocate) does.
    pub const fn allocate(size: usize, align_order: usize) -> Self {
        Self([calls::ALLOCATE, size as u64, align_order as u64, 0])
    }

    /// What [`MemoryAllocator::reserve_memory`](crate::MemoryAllocator::reserve_memory) does.
    pub const fn reserve_memory(start_address: usize, size: usize, align_order: usize) -> Self {
        Self([calls::RESERVE, start_address as u64, size as u64, align_order as u64])
    }
}

impl Call {
    pub(crate) const fn of_words(words: [u64; calls::CALL_WORDS]) -> Self {
        Self(words)
    }

    pub(crate) const fn words(&self) -> &[u64; calls::CALL_WORDS] {
        &self.0
    }
}

impl From<CallAnswer> for Result<usize, MemoryError> {
    fn from(answer: CallAnswer) -> Self {
        answer.result()
    }
}

impl CallAnswer {
    /// The address of an allocation, 0 for another call, or why it was refused.
    pub fn result(self) -> Result<usize, MemoryError> {
        calls::result_of(self.0)
    }
}

/// Lends the slices as the words that they are, to what serves them.
pub(crate) fn serve(
    list: &[Call],
    answers: &mut [CallAnswer],
    by: impl FnOnce(&[u64], &mut [i64]) -> i64,
) -> Result<(), MemoryError> {
    // never wraps: the slice's bytes are eight times as many
    let words = list.len().wrapping_mul(calls::CALL_WORDS);
    // SAFETY: a `Call` is four words and nothing else, and a `CallAnswer` one signed number (`repr(transparent)`), so that the
    // slices have this many of them; any number may be written. Both borrows last as long as the slices made of them.
    let (words, places) = unsafe {
        let places = core::slice::from_raw_parts_mut(answers.as_mut_ptr().cast::<i64>(), answers.len());
        (core::slice::from_raw_parts(list.as_ptr().cast::<u64>(), words), places)
    };
    calls::result_of(by(words, places)).map(|_| ())
}
