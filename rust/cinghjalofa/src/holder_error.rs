//! Why a call on an allocator with holders was refused.

use core::fmt;

use crate::{MemoryError, UnknownNumber};

/// Why a call on an allocator with holders was refused: what the allocator itself refuses, and two reasons of the register. A refused call
/// has changed nothing.
#[derive(Clone, Copy, PartialEq, Eq, Hash, Debug)]
pub enum HolderError {
    /// A record is needed and all are in use.
    NoEntry,
    /// The image is not that of a sound allocator with holders.
    InvalidEntry,
    /// Too few bytes are free, or no free range fits.
    NoMemory,
    /// No such holder, or what the allocator calls so.
    InvalidRequest,
    /// A free of what is not exactly a range handed to this holder, or an offer of held bytes.
    NotYours,
    /// The allocator would accept, and as many ranges are held as there can be.
    RegisterFull,
}

impl HolderError {
    /// The number that the documents and the C calls give it, 1 to 6; the first four are those of [`MemoryError`].
    ///
    /// ```
    /// use cinghjalofa::{HolderError, MemoryError, UnknownNumber};
    ///
    /// assert_eq!(HolderError::NotYours.number(), 5);
    /// assert_eq!(HolderError::from(MemoryError::NoMemory).number(), MemoryError::NoMemory.number());
    /// assert_eq!(HolderError::try_from(6), Ok(HolderError::RegisterFull));
    /// assert_eq!(HolderError::try_from(7), Err(UnknownNumber(7)));
    /// assert_eq!(HolderError::RegisterFull.to_string(), "all entries of the register are used");
    /// ```
    pub const fn number(self) -> u8 {
        match self {
            HolderError::NoEntry => 1,
            HolderError::InvalidEntry => 2,
            HolderError::NoMemory => 3,
            HolderError::InvalidRequest => 4,
            HolderError::NotYours => 5,
            HolderError::RegisterFull => 6,
        }
    }
}

/// The refusal of the same number.
impl From<MemoryError> for HolderError {
    fn from(error: MemoryError) -> Self {
        match error {
            MemoryError::NoEntry => HolderError::NoEntry,
            MemoryError::InvalidEntry => HolderError::InvalidEntry,
            MemoryError::NoMemory => HolderError::NoMemory,
            MemoryError::InvalidRequest => HolderError::InvalidRequest,
        }
    }
}

/// The refusal that has this [`number`](HolderError::number).
impl TryFrom<u8> for HolderError {
    type Error = UnknownNumber;

    fn try_from(number: u8) -> Result<Self, UnknownNumber> {
        match number {
            5 => Ok(HolderError::NotYours),
            6 => Ok(HolderError::RegisterFull),
            _ => MemoryError::try_from(number).map(HolderError::from),
        }
    }
}

impl From<HolderError> for u8 {
    fn from(error: HolderError) -> Self {
        error.number()
    }
}

/// The words of `cinghjalofa_text`.
impl fmt::Display for HolderError {
    fn fmt(&self, f: &mut fmt::Formatter<'_>) -> fmt::Result {
        match self {
            HolderError::NoEntry => MemoryError::NoEntry.fmt(f),
            HolderError::InvalidEntry => MemoryError::InvalidEntry.fmt(f),
            HolderError::NoMemory => MemoryError::NoMemory.fmt(f),
            HolderError::InvalidRequest => MemoryError::InvalidRequest.fmt(f),
            HolderError::NotYours => f.write_str("not exactly a range handed to this holder, or bytes that are held"),
            HolderError::RegisterFull => f.write_str("all entries of the register are used"),
        }
    }
}

// Where the compiler has it in `core`, which build.rs finds out.
#[cfg(cinghjalofa_core_error)]
impl core::error::Error for HolderError {}
