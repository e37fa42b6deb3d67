//! What an allocator with holders does over its image, for the one that owns it and the one that is lent it: the proved calls, their numbers
//! turned into `Result`s, and what is read of the image.

use core::ops::Range;

use crate::calls::{self, library, IMAGE_BYTES, RECORDS};
use crate::held::{HeldRanges, ENTRIES_AT};
use crate::ranges::FreeRanges;
use crate::HolderError;

pub(crate) use library::{HELD_RANGES, HOLDERS, HOLDERS_IMAGE_BYTES};

pub(crate) type Image = [u8; HOLDERS_IMAGE_BYTES];

/// The version byte of the image, and that of the allocator's image in it.
const VERSION: u8 = 1;
const MEMORY_VERSION: u8 = 3;
/// Where the allocator's image begins in it.
const MEMORY_AT: usize = library::HOLDERS_MEMORY;
/// In the allocator's image: the links behind the total, with the lowest figure behind them; the records, and in each the links.
const LINKS_AT: usize = 13;
const RECORDS_AT: usize = IMAGE_BYTES - RECORDS * RECORD_BYTES;
const RECORD_BYTES: usize = 25;
const RECORD_LINKS_AT: usize = 17;

/// The image of the empty allocator with an empty register, as the library writes it.
pub(crate) const EMPTY: Image = empty();

const fn empty() -> Image {
    let mut image = with_head([0; HOLDERS_IMAGE_BYTES], 0, VERSION);
    image = with_head(image, MEMORY_AT, MEMORY_VERSION);
    image = with_none(image, MEMORY_AT + LINKS_AT, MEMORY_AT + RECORDS_AT);
    let mut record = MEMORY_AT + RECORDS_AT;
    while record < HOLDERS_IMAGE_BYTES {
        image = with_none(image, record + RECORD_LINKS_AT, record + RECORD_BYTES);
        record += RECORD_BYTES;
    }
    image
}

/// With a version byte, and the length of all that follows it.
const fn with_head(mut image: Image, at: usize, version: u8) -> Image {
    let rest = ((HOLDERS_IMAGE_BYTES - at - ENTRIES_AT) as u32).to_be_bytes();
    image[at] = version;
    image[at + 1] = rest[0];
    image[at + 2] = rest[1];
    image[at + 3] = rest[2];
    image[at + 4] = rest[3];
    image
}

/// With no link there, and no figure.
const fn with_none(mut image: Image, mut at: usize, end: usize) -> Image {
    while at < end {
        image[at] = u8::MAX;
        at += 1;
    }
    image
}

pub(crate) fn new(image: &mut [u8]) -> Result<(), HolderError> {
    result_of(library::holders_new(image)).map(|_| ())
}

pub(crate) fn offer(image: &mut [u8], start: usize, size: usize) -> Result<(), HolderError> {
    result_of(library::holders_offer(image, start as u64, size as u64)).map(|_| ())
}

pub(crate) fn allocate(image: &mut [u8], holder: usize, size: usize, order: usize) -> Result<usize, HolderError> {
    result_of(library::holders_allocate(image, holder as u64, size as u64, order as u64))
}

pub(crate) fn reserve_memory(
    image: &mut [u8],
    holder: usize,
    start: usize,
    size: usize,
    order: usize,
) -> Result<(), HolderError> {
    let (holder, start, size, order) = (holder as u64, start as u64, size as u64, order as u64);
    result_of(library::holders_reserve_memory(image, holder, start, size, order)).map(|_| ())
}

pub(crate) fn free(image: &mut [u8], holder: usize, start: usize, size: usize) -> Result<(), HolderError> {
    result_of(library::holders_free(image, holder as u64, start as u64, size as u64)).map(|_| ())
}

/// Whether these bytes, which no call that is refused changes, are a sound image: 0 bytes are a bad request, which an unsound one never
/// hears.
pub(crate) fn is_sound_in(image: &mut [u8]) -> bool {
    library::holders_allocate(image, 1, 0, 0) == library::INVALID_REQUEST
}

pub(crate) fn is_sound(image: &[u8]) -> bool {
    <&Image>::try_from(image).map_or(false, |image| {
        let mut copy = *image;
        is_sound_in(&mut copy)
    })
}

/// The free bytes; 0 of an image that is not sound.
pub(crate) fn total(image: &Image) -> usize {
    calls::total(sound(image, MEMORY_AT..HOLDERS_IMAGE_BYTES))
}

/// The lowest figure; none before the first offer, nor of an image that is not sound.
pub(crate) fn lowest(image: &Image) -> Option<usize> {
    calls::lowest(sound(image, MEMORY_AT..HOLDERS_IMAGE_BYTES))
}

/// The free ranges; none of an image that is not sound.
pub(crate) fn ranges(image: &Image) -> FreeRanges {
    let memory = sound(image, MEMORY_AT..HOLDERS_IMAGE_BYTES);
    FreeRanges::of(|starts, lasts| calls::listing(memory, starts, lasts))
}

/// The held ranges, of all or of one; none of an image that is not sound.
pub(crate) fn held(image: &Image, holder: Option<usize>) -> HeldRanges<'_> {
    HeldRanges::of(sound(image, ENTRIES_AT..MEMORY_AT), holder)
}

/// A part of a sound image: the entries, or the allocator's image. Of any other image no byte is to be read.
fn sound(image: &Image, part: Range<usize>) -> &[u8] {
    image.get(part).filter(|_| is_sound(image)).unwrap_or(&[])
}

fn result_of(answer: i64) -> Result<usize, HolderError> {
    match answer {
        library::NOT_YOURS => Err(HolderError::NotYours),
        library::REGISTER_FULL => Err(HolderError::RegisterFull),
        _ => calls::result_of(answer).map_err(HolderError::from),
    }
}
