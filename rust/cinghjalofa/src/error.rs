//! Why a call was refused.

use core::fmt;

/// Why a call was refused. A refused call has changed nothing.
#[derive(Clone, Copy, PartialEq, Eq, Hash, Debug)]
pub enum MemoryError {
    /// A record is needed and all are in use.
    NoEntry,
    /// The state, or the image, is not that of a sound allocator.
    InvalidEntry,
    /// Too few bytes are free, or no free range fits.
    NoMemory,
    /// Size or count 0, an order above 63, a bad or overlapping range, or a slice that is too short for a listing or for answers.
    InvalidRequest,
}

/// A number that no refusal has; see [`MemoryError::try_from`](TryFrom).
#[derive(Clone, Copy, PartialEq, Eq, Hash, Debug)]
pub struct UnknownNumber(pub u8);

impl MemoryError {
    /// The number that the documents and the C calls give it, 1 to 4. (`as` counts from 0, as it does of the module's.)
    ///
    /// ```
    /// use cinghjalofa::{MemoryError, UnknownNumber};
    ///
    /// assert_eq!(MemoryError::NoEntry.number(), 1);
    /// assert_eq!(MemoryError::InvalidRequest.number(), 4);
    /// assert_eq!(MemoryError::try_from(3), Ok(MemoryError::NoMemory));
    /// assert_eq!(MemoryError::try_from(0), Err(UnknownNumber(0)));
    /// assert_eq!(MemoryError::NoMemory.to_string(), "too few bytes are free, or no free range fits");
    /// ```
    pub const fn number(self) -> u8 {
        match self {
            MemoryError::NoEntry => 1,
            MemoryError::InvalidEntry => 2,
            MemoryError::NoMemory => 3,
            MemoryError::InvalidRequest => 4,
        }
    }
}

/// The refusal that has this [`number`](MemoryError::number).
impl TryFrom<u8> for MemoryError {
    type Error = UnknownNumber;

    fn try_from(number: u8) -> Result<Self, UnknownNumber> {
        match number {
            1 => Ok(MemoryError::NoEntry),
            2 => Ok(MemoryError::InvalidEntry),
            3 => Ok(MemoryError::NoMemory),
            4 => Ok(MemoryError::InvalidRequest),
            _ => Err(UnknownNumber(number)),
        }
    }
}

impl From<MemoryError> for u8 {
    fn from(error: MemoryError) -> Self {
        error.number()
    }
}

/// The words of `cinghjalofa_text`.
impl fmt::Display for MemoryError {
    fn fmt(&self, f: &mut fmt::Formatter<'_>) -> fmt::Result {
        f.write_str(match self {
            MemoryError::NoEntry => "a record is needed and none is unused",
            MemoryError::InvalidEntry => "the state, or the image, is not that of a sound allocator",
            MemoryError::NoMemory => "too few bytes are free, or no free range fits",
            MemoryError::InvalidRequest => "the request cannot be right: its size, order, addresses or places",
        })
    }
}

impl fmt::Display for UnknownNumber {
    fn fmt(&self, f: &mut fmt::Formatter<'_>) -> fmt::Result {
        write!(f, "no refusal has the number {}", self.0)
    }
}

// Where the compiler has it in `core`, which build.rs finds out.
#[cfg(cinghjalofa_core_error)]
impl core::error::Error for MemoryError {}
#[cfg(cinghjalofa_core_error)]
impl core::error::Error for UnknownNumber {}
