//! A journal of calls with their answers, in bytes, and its audit.
//!
//! A box writes the block of each call behind the version byte; whoever has the bytes replays the calls from empty and learns
//! whether every answer is the one that the rules give.
//!
//! ```
//! use cinghjalofa::journal::{answer_of, audit, begin, read, write, Entry, Verdict};
//! use cinghjalofa::{Call, MemoryAllocator};
//!
//! let mut memory = MemoryAllocator::new();
//! let mut file = [0; 200];
//! let mut end = begin(&mut file).unwrap();
//! let free = Entry { call: Call::free(65536, 65536), answer: answer_of(memory.free(65536, 65536).map(|_| 0)) };
//! end = write(&mut file, end, free).unwrap();
//! let taken = Entry { call: Call::allocate(4096, 0), answer: answer_of(memory.allocate(4096, 0)) };
//! let second = end;
//! end = write(&mut file, end, taken).unwrap();
//!
//! assert_eq!(read(&file[..end], second), Ok(Some((taken, end))));
//! assert_eq!(audit(&file[..end]), Ok(Verdict::Agrees { total: memory.total() }));
//! file[end - 1] ^= 1; // another answer than the call got
//! assert_eq!(audit(&file[..end]).unwrap().to_string(), "differs 1");
//! ```

use core::fmt;

use crate::calls;
use crate::list::Call;
use crate::MemoryError;

/// The bytes of the longest block: a buffer of so many takes any.
pub const LONGEST_BLOCK: usize = calls::LONGEST_BLOCK;

/// A call, and the answer that it got as one signed number: the address or 0, or minus the number of the refusal.
#[derive(Clone, Copy, PartialEq, Eq, Hash, Debug)]
pub struct Entry {
    /// The call.
    pub call: Call,
    /// Its answer.
    pub answer: i64,
}

/// What an audit reports. An index counts blocks from 0.
#[derive(Clone, Copy, PartialEq, Eq, Hash, Debug)]
pub enum Verdict {
    /// Every answer is the one of the replay.
    Agrees {
        /// The free bytes after the last call.
        total: usize,
    },
    /// An answer is not the one of the replay.
    Differs {
        /// The first such call.
        index: u64,
    },
    /// The journal ends within a block.
    Truncated {
        /// That block.
        index: u64,
    },
    /// There is no such call byte.
    UnknownCall {
        /// The block that has it.
        index: u64,
    },
    /// The length is not that of the call.
    WrongLength {
        /// The block that has it.
        index: u64,
    },
}

impl fmt::Display for Verdict {
    fn fmt(&self, out: &mut fmt::Formatter<'_>) -> fmt::Result {
        match self {
            Verdict::Agrees { total } => write!(out, "agrees {total}"),
            Verdict::Differs { index } => write!(out, "differs {index}"),
            Verdict::Truncated { index } => write!(out, "truncated {index}"),
            Verdict::UnknownCall { index } => write!(out, "unknown-call {index}"),
            Verdict::WrongLength { index } => write!(out, "wrong-length {index}"),
        }
    }
}

/// What is written of a call's result. (Of a call that answers `()`, map it to 0 first.)
pub fn answer_of(result: Result<usize, MemoryError>) -> i64 {
    match result {
        Ok(address) => address as i64,
        Err(refusal) => -i64::from(refusal.number()),
    }
}

/// Writes the version byte, and gives the place of the first block. `InvalidRequest`: the slice is empty.
pub fn begin(journal: &mut [u8]) -> Result<usize, MemoryError> {
    calls::result_of(calls::journal_begin(journal))
}

/// Writes the block of an entry from the place `at` on, and gives the place after it. `InvalidRequest`: it does not fit, and
/// nothing is written.
pub fn write(journal: &mut [u8], at: usize, entry: Entry) -> Result<usize, MemoryError> {
    calls::result_of(calls::journal_write(journal, at as u64, entry.call.words(), entry.answer))
}

/// Reads the block at the place `at`, with the place after it; `None` at the end. `InvalidRequest`: the place lies past the end;
/// `InvalidEntry`: no whole good block stands there.
pub fn read(journal: &[u8], at: usize) -> Result<Option<(Entry, usize)>, MemoryError> {
    let mut words = [0; calls::ENTRY_WORDS];
    let next = calls::result_of(calls::journal_read(journal, at as u64, &mut words))?;
    if next == 0 {
        return Ok(None);
    }
    let [kind, x, y, z, bits] = words;
    Ok(Some((Entry { call: Call::of_words([kind, x, y, z]), answer: bits as i64 }, next)))
}

/// Replays the journal from empty, with the rules of this build. `InvalidEntry`: there is no version byte, or another.
pub fn audit(journal: &[u8]) -> Result<Verdict, MemoryError> {
    let mut figure = 0;
    match calls::audit(journal, &mut figure) {
        calls::AGREES => Ok(Verdict::Agrees { total: figure as usize }),
        calls::DIFFERS => Ok(Verdict::Differs { index: figure }),
        calls::TRUNCATED => Ok(Verdict::Truncated { index: figure }),
        calls::UNKNOWN_CALL => Ok(Verdict::UnknownCall { index: figure }),
        calls::WRONG_LENGTH => Ok(Verdict::WrongLength { index: figure }),
        _ => Err(MemoryError::InvalidEntry),
    }
}
