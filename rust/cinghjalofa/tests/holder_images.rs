//! Images of an allocator with holders: the constant one, refused ones, unusual sound ones, and every one-byte change of a rich one.

mod holding;

use cinghjalofa::{
    is_sound, is_sound_with_holders, HolderAllocator, HolderError, LentHolderAllocator, MemoryAllocator,
};
use cinghjalofa::{HOLDERS_IMAGE_BYTES, IMAGE_BYTES};
use holding::holder_image::{entries_of, is_sound_register, put_entry, MEMORY_AT};
use holding::holder_model::{Held, ENTRIES, TOP};
use holding::Both;

type Image = [u8; HOLDERS_IMAGE_BYTES];

/// The free ranges of the allocator's image in it, or none where that is not sound; tests/c_calls judges that one by itself.
fn free(image: &Image) -> Option<Vec<(u64, u64)>> {
    let memory = MemoryAllocator::from_image(&image[MEMORY_AT..]).ok()?;
    Some(memory.ranges().map(|range| (range.start as u64, range.last as u64)).collect())
}

/// By this test's own judge.
fn judged(image: &Image) -> bool {
    free(image).map_or(false, |free| is_sound_register(image, &free))
}

/// Held ranges of five holders that touch one another, free ones and nothing; entries between them that were used and are not.
fn rich() -> Image {
    let mut both = Both::with(&[('o', &[0, 0x40]), ('o', &[0x100, 0x1000]), ('o', &[TOP - 0x20, 0x20])]);
    for (letter, numbers) in [
        ('r', &[1, 0, 1, 0][..]),
        ('r', &[2, 0x10, 4, 0]),
        ('r', &[16, 0x14, 1, 0]),
        ('r', &[1, 0x200, 0x80, 4]),
        ('r', &[3, 0x2f5, 1, 4]),
        ('r', &[4, TOP - 1, 1, 0]),
        ('f', &[16, 0x14, 1]),
        ('f', &[1, 0, 1]),
        ('r', &[9, 0x300, 0x100, 0]),
    ] {
        assert!(both.ask(letter, numbers) >= 0, "{letter} {numbers:?}");
    }
    *both.own.image()
}

fn with_entry(image: &Image, number: usize, holder: u64, start: u64, last: u64) -> Image {
    let mut image = *image;
    put_entry(&mut image, number, Held { holder, start, last });
    image
}

fn expect(image: &Image, sound: bool, what: &str) {
    assert_eq!(is_sound_with_holders(image), sound, "{what}");
    assert_eq!(judged(image), sound, "{what}, by the judge");
    assert_eq!(HolderAllocator::from_image(image).is_ok(), sound, "{what}");
}

#[test]
fn the_constant_image_is_the_one_that_the_library_writes() {
    let mut written = [0xa5; HOLDERS_IMAGE_BYTES];
    LentHolderAllocator::new(&mut written).unwrap();
    assert!(written == *HolderAllocator::new().image());
    assert!(written[MEMORY_AT..] == MemoryAllocator::new().image());
    expect(&written, true, "the empty one");
}

#[test]
fn the_register_stands_first_and_the_allocators_image_behind_it_whole() {
    let image = rich();
    let rest = (HOLDERS_IMAGE_BYTES - 5) as u32;
    assert_eq!((image[0], &image[1..5]), (1, &rest.to_be_bytes()[..]));
    assert_eq!(HOLDERS_IMAGE_BYTES, 1093 + IMAGE_BYTES);
    assert!(is_sound(&image[1093..]));
    assert_eq!(image[5], 9); // holder 9 in entry 0, which was given back, from 0x300 to 0x3ff
    assert_eq!(image[6..14], 0x300_u64.to_be_bytes());
    assert_eq!(image[14..22], 0x3ff_u64.to_be_bytes());
    assert_eq!(image[5 + 17 * 2..5 + 17 * 3], [0; 17]); // entry 2 was given back, too
    assert_eq!(image[5 + 17 * 3], 1);
}

#[test]
fn a_slice_of_another_length_is_refused_and_kept() {
    for length in [0, 1, MEMORY_AT, IMAGE_BYTES, HOLDERS_IMAGE_BYTES - 1, HOLDERS_IMAGE_BYTES + 1] {
        let mut bytes = vec![0xa5; length];
        bytes.iter_mut().zip(*HolderAllocator::new().image()).for_each(|(to, from)| *to = from);
        let before = bytes.clone();
        let refused = Some(HolderError::InvalidEntry);
        assert_eq!(LentHolderAllocator::new(&mut bytes).err(), refused, "new over {length} bytes");
        assert_eq!(LentHolderAllocator::from_image(&mut bytes).err(), refused, "{length} bytes");
        assert_eq!(HolderAllocator::from_image(&bytes).err(), refused, "{length} bytes");
        assert!(!is_sound_with_holders(&bytes), "{length} bytes");
        assert_eq!(bytes, before, "a refusal changed one of {length} bytes");
    }
}

/// The allocator's images of before have other lengths: 1370 bytes, and 6439.
#[test]
fn an_older_allocators_image_inside_is_refused() {
    for older in [1370, 6439].into_iter().filter(|&older| older != IMAGE_BYTES) {
        let mut bytes = HolderAllocator::new().image()[..MEMORY_AT].to_vec();
        bytes.extend(&MemoryAllocator::new().image()[..older]);
        let rest = (bytes.len() - 5) as u32;
        bytes[1..5].copy_from_slice(&rest.to_be_bytes());
        assert_eq!(HolderAllocator::from_image(&bytes).err(), Some(HolderError::InvalidEntry), "{older} bytes");
    }
    let mut image = *HolderAllocator::new().image();
    for version in (0..=u8::MAX).filter(|&version| version != image[MEMORY_AT]).collect::<Vec<_>>() {
        image[MEMORY_AT] = version;
        expect(&image, false, "another version inside");
    }
}

#[test]
fn entries_that_are_not_sound() {
    let image = rich();
    let unused = ENTRIES - 1;
    expect(&image, true, "as it was made");
    for (holder, start, last, what) in [
        (0, 0x8000, 0, "a start that was left over"),
        (0, 0, 1, "a last byte that was left over"),
        (0, 0x8000, 0x8fff, "a range of nobody"),
        (17, 0x8000, 0x8fff, "holder 17"),
        (255, 0x8000, 0x8fff, "holder 255"),
        (1, 0x8000, 0x7fff, "no byte"),
        (1, 0x8000, 0, "its ends the other way round"),
        (1, 0x8000, TOP, "past 2^63"),
        (1, u64::MAX, u64::MAX, "at 2^64"),
        (1, 0x200, 0x27f, "another's range once more"),
        (1, 0x180, 0x200, "one byte over another entry, at its end"),
        (5, 0x3ff, 0x3ff, "one byte of another entry"),
        (5, 0, 0, "a free byte"),
    ] {
        expect(&with_entry(&image, unused, holder, start, last), false, what);
    }
    expect(&with_entry(&image, unused, 5, 0x8000, 0x8fff), true, "bytes that nobody has");
}

/// Free are 0x100 to 0x13f and 0x150 to 0x1ff; what lies between them is held, and so is byte 0.
#[test]
fn entries_that_touch_are_sound_and_those_that_overlap_are_not() {
    let mut both = Both::with(&[('o', &[0x100, 0x100]), ('o', &[0, 1])]);
    assert_eq!(both.ask('r', &[1, 0x140, 0x10, 0]), 0);
    assert_eq!(both.ask('a', &[1, 1, 0]), 0);
    let image = *both.own.image();
    for (start, last, sound, what) in [
        (0x80, 0xff, true, "it ends before a free range"),
        (0x80, 0x100, false, "its last byte is free"),
        (0x200, 0x280, true, "it begins behind a free range"),
        (0x1ff, 0x280, false, "its first byte is free"),
        (0x80, 0x280, false, "a free range lies in it"),
        (0x120, 0x121, false, "it lies in a free range"),
        (1, 8, true, "it touches another entry"),
        (0, 8, false, "its first byte is another's"),
        (0x8000, TOP - 1, true, "it ends with the last address"),
        (0x8000, TOP, false, "it ends behind the last address"),
    ] {
        for holder in [1, 2, 16] {
            expect(&with_entry(&image, 40, holder, start, last), sound, what);
        }
    }
}

/// Their order is history: any may be unused, and exchanged they are another sound state with the same lists.
#[test]
fn entries_may_stand_anywhere() {
    let image = rich();
    let entries = entries_of(&image);
    let mut turned = image;
    entries.iter().enumerate().for_each(|(k, &entry)| put_entry(&mut turned, ENTRIES - 1 - k, entry));
    expect(&turned, true, "the entries the other way round");
    let (one, other) = (HolderAllocator::from_image(&image).unwrap(), HolderAllocator::from_image(&turned).unwrap());
    assert!(one.image() != other.image() && one.held().eq(other.held()) && one.held().len() == 5);
}

#[test]
fn a_damaged_image_is_refused_and_kept() {
    for at in [0, 4, 5, 6, 14, MEMORY_AT, MEMORY_AT + 12, HOLDERS_IMAGE_BYTES - 1] {
        let mut image = rich();
        image[at] ^= 0x80;
        let damaged = image;
        assert_eq!(LentHolderAllocator::from_image(&mut image).err(), Some(HolderError::InvalidEntry), "byte {at}");
        assert_eq!(HolderAllocator::from_image(&image).err(), Some(HolderError::InvalidEntry), "byte {at}");
        assert!(image == damaged, "the refusal changed bytes where byte {at} is damaged");
    }
}

#[test]
fn owned_and_lent_go_on_with_one_another() {
    let mut owned = HolderAllocator::from_image(&rich()).unwrap();
    let mut image = *owned.image();
    let mut lent = LentHolderAllocator::from_image(&mut image).unwrap();
    assert_eq!(lent.free(9, 0x300, 0x100), owned.free(9, 0x300, 0x100));
    assert_eq!(lent.allocate(5, 0x40, 4), owned.allocate(5, 0x40, 4));
    assert_eq!((lent.is_sound(), lent.total()), (true, owned.total()));
    assert!(lent.holdings(5).eq(owned.holdings(5)) && lent.image() == owned.image());
}

/// Every value of every byte before the allocator's image, and of that one a change of each byte.
#[test]
fn every_one_byte_change_is_sound_or_refused() {
    let image = rich();
    let free_there = free(&image).unwrap();
    let mut sound = [0; 2];
    let mut lent = image;
    let mut attempt = |at: usize, value: u8, judged: bool| {
        lent[at] = value;
        assert_eq!(is_sound_with_holders(&lent), judged, "byte {at} = {value}");
        lent[at] = image[at];
        sound[(at >= MEMORY_AT) as usize] += judged as usize;
    };
    for at in 0..MEMORY_AT {
        for value in (0..=u8::MAX).filter(|&value| value != image[at]) {
            let mut changed = image;
            changed[at] = value;
            attempt(at, value, is_sound_register(&changed, &free_there));
        }
    }
    for at in MEMORY_AT..HOLDERS_IMAGE_BYTES {
        let mut changed = image;
        changed[at] ^= 1 << (at % 8);
        attempt(at, changed[at], judged(&changed));
    }
    assert!(sound[0] > 100, "{sound:?}: of some entries another holder, or other bytes, would have been sound too");
}
