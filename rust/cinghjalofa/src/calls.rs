//! The C calls of the proved library, their numbers turned into `Result`s.

use crate::MemoryError;

// The declarations, behind safe functions over slices.
#[allow(dead_code)]
#[path = "library.rs"]
pub(crate) mod library;

pub(crate) use library::{audit, journal_begin, journal_read, journal_write};
pub(crate) use library::{Own, RECORDS};
pub(crate) use library::{AGREES, DIFFERS, ENTRY_WORDS, LONGEST_BLOCK, TRUNCATED, UNKNOWN_CALL, WRONG_LENGTH};
pub(crate) use library::{ALLOCATE, ALLOCATE_PAGES, CALL_WORDS, FREE, FREE_PAGES, IMAGE_BYTES, PAGE_BYTES, RESERVE};

pub(crate) fn new(image: &mut [u8]) -> Result<(), MemoryError> {
    result_of(library::new(image)).map(|_| ())
}

pub(crate) fn upgrade(old: &[u8], image: &mut [u8]) -> Result<(), MemoryError> {
    result_of(library::upgrade(old, image)).map(|_| ())
}

pub(crate) fn allocate(image: &mut [u8], size: usize, order: usize) -> Result<usize, MemoryError> {
    result_of(library::allocate(image, size as u64, order as u64))
}

pub(crate) fn reserve_memory(image: &mut [u8], start: usize, size: usize, order: usize) -> Result<(), MemoryError> {
    result_of(library::reserve_memory(image, start as u64, size as u64, order as u64)).map(|_| ())
}

pub(crate) fn free(image: &mut [u8], start: usize, size: usize) -> Result<(), MemoryError> {
    result_of(library::free(image, start as u64, size as u64)).map(|_| ())
}

pub(crate) fn allocate_pages(image: &mut [u8], count: usize, order: usize) -> Result<usize, MemoryError> {
    result_of(library::allocate_pages(image, count as u64, order as u64))
}

pub(crate) fn free_pages(image: &mut [u8], address: usize, count: usize) -> Result<(), MemoryError> {
    result_of(library::free_pages(image, address as u64, count as u64)).map(|_| ())
}

#[allow(clippy::too_many_arguments)]
pub(crate) fn map_address_stage2(
    image: &mut [u8],
    arena: &mut [u64],
    base: usize,
    vttbr_el2: u64,
    vtcr_el2: u64,
    physical_address: usize,
    intermediate_physical_address: usize,
    map_size: usize,
    is_readable: bool,
    is_writable: bool,
) -> Result<(), MemoryError> {
    let (output, input, size) = (physical_address as u64, intermediate_physical_address as u64, map_size as u64);
    let number = library::map_address_stage2(
        image,
        arena,
        base as u64,
        vttbr_el2,
        vtcr_el2,
        output,
        input,
        size,
        is_readable,
        is_writable,
    );
    result_of(number).map(|_| ())
}

pub(crate) fn batch(image: &mut [u8], calls: &[u64], answers: &mut [i64]) -> i64 {
    library::batch(image, calls, answers)
}

pub(crate) fn total(image: &[u8]) -> usize {
    figure(|figure| library::total(image, figure))
}

pub(crate) fn lowest(image: &[u8]) -> Option<usize> {
    lowest_figure(|figure| library::lowest(image, figure))
}

pub(crate) fn is_image(image: &[u8]) -> bool {
    library::total(image, &mut 0) >= 0
}

pub(crate) fn listing(image: &[u8], starts: &mut [u64], lasts: &mut [u64]) -> i64 {
    library::listing(image, starts, lasts)
}

/// The figure that a call writes; 0 where it is refused.
pub(crate) fn figure(write: impl FnOnce(&mut u64) -> i64) -> usize {
    let mut figure = 0;
    write(&mut figure);
    figure as usize
}

/// The lowest figure that a call writes; none before the first free, nor where it is refused.
pub(crate) fn lowest_figure(write: impl FnOnce(&mut u64) -> i64) -> Option<usize> {
    let mut figure = library::NEVER;
    write(&mut figure);
    (figure != library::NEVER).then_some(figure as usize)
}

/// An address, or minus the refusal number. The library gives no other number; one would mean another library, and
/// then no state is to be trusted.
#[inline]
pub(crate) fn result_of(answer: i64) -> Result<usize, MemoryError> {
    match answer {
        0.. => Ok(answer as usize),
        library::NO_ENTRY => Err(MemoryError::NoEntry),
        library::NO_MEMORY => Err(MemoryError::NoMemory),
        library::INVALID_REQUEST => Err(MemoryError::InvalidRequest),
        _ => Err(MemoryError::InvalidEntry),
    }
}
