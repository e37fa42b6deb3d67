//! The entries of an image with holders, and the judge of them: request T-07's sentence of a sound register, written without the library.

#![allow(dead_code)] // each program uses a part

use super::holder_model::{is_holder, overlap, Held, Piece, ENTRIES, TOP};

/// Where the entries begin, how many bytes one has, and where the allocator's image follows.
pub const ENTRIES_AT: usize = 5;
pub const ENTRY_BYTES: usize = 17;
pub const MEMORY_AT: usize = ENTRIES_AT + ENTRIES * ENTRY_BYTES;

/// Holder, first byte and last byte of each entry, as they stand in the bytes, right or wrong.
pub fn entries_of(image: &[u8]) -> Vec<Held> {
    let number = |bytes: &[u8]| u64::from_be_bytes(bytes.try_into().unwrap());
    let entries = image[ENTRIES_AT..MEMORY_AT].chunks(ENTRY_BYTES);
    entries.map(|of| Held { holder: of[0].into(), start: number(&of[1..9]), last: number(&of[9..]) }).collect()
}

/// The same, of a model.
pub fn written(entries: &[Option<Held>]) -> Vec<Held> {
    entries.iter().map(|entry| entry.unwrap_or(Held { holder: 0, start: 0, last: 0 })).collect()
}

pub fn put_entry(image: &mut [u8], number: usize, entry: Held) {
    let bytes = &mut image[ENTRIES_AT + ENTRY_BYTES * number..][..ENTRY_BYTES];
    bytes[0] = u8::try_from(entry.holder).unwrap();
    bytes[1..9].copy_from_slice(&entry.start.to_be_bytes());
    bytes[9..].copy_from_slice(&entry.last.to_be_bytes());
}

/// Whether the bytes before the allocator's image are those of a sound register over these free ranges.
pub fn is_sound_register(image: &[u8], free: &[Piece]) -> bool {
    let rest = u32::from_be_bytes(image[1..ENTRIES_AT].try_into().unwrap());
    let entries = entries_of(image);
    let unused = Held { holder: 0, start: 0, last: 0 };
    let used: Vec<Held> = entries.iter().copied().filter(|entry| *entry != unused).collect();
    let apart = |at: usize, entry: &Held| {
        let piece = (entry.start, entry.last);
        let others = used[at + 1..].iter().map(|other| (other.start, other.last));
        !others.chain(free.iter().copied()).any(|other| overlap(other, piece))
    };
    image[0] == 1
        && rest as usize == image.len() - ENTRIES_AT
        && used.iter().all(|entry| is_holder(entry.holder) && entry.start <= entry.last && entry.last < TOP)
        && used.iter().enumerate().all(|(at, entry)| apart(at, entry))
}
