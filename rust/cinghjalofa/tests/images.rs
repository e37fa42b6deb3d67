//! Images: the constant one, refused ones, and one that is handed from hand to hand.

use cinghjalofa::{is_sound, LentAllocator, MemoryAllocator, MemoryError, IMAGE_BYTES};

fn with_three_ranges() -> MemoryAllocator {
    let mut memory = MemoryAllocator::new();
    for start in [0x8000, 0x2000, 0x5000] {
        memory.free(start, 0x1000).unwrap();
    }
    memory
}

#[test]
fn the_constant_image_is_the_one_that_the_library_writes() {
    let mut written = [0xa5; IMAGE_BYTES];
    LentAllocator::new(&mut written).unwrap();
    assert_eq!(written, MemoryAllocator::new().image());
}

#[test]
fn a_slice_of_another_length_is_refused_and_kept() {
    for length in [0, 1, IMAGE_BYTES - 1, IMAGE_BYTES + 1, 4096] {
        let mut bytes = vec![0xa5; length];
        bytes.iter_mut().zip(MemoryAllocator::new().image()).for_each(|(to, from)| *to = from);
        let before = bytes.clone();
        assert_eq!(LentAllocator::new(&mut bytes).err(), Some(MemoryError::InvalidEntry), "new over {length} bytes");
        assert_eq!(LentAllocator::from_image(&mut bytes).err(), Some(MemoryError::InvalidEntry), "{length} bytes");
        assert_eq!(MemoryAllocator::from_image(&bytes).err(), Some(MemoryError::InvalidEntry), "{length} bytes");
        assert_eq!(bytes, before, "a refusal changed one of {length} bytes");
    }
}

/// Each byte of a sound image matters: with any one flipped there is no image, and the bytes stay as they were. A lowest figure that is not
/// above the total is as good as another.
#[test]
fn every_flipped_byte_is_noticed() {
    let sound = with_three_ranges().image();
    assert!(is_sound(&sound));
    for at in 0..IMAGE_BYTES {
        let mut image = sound;
        image[at] ^= 0x80;
        let damaged = image;
        let lowest = u64::from_be_bytes(image[39..47].try_into().unwrap());
        if (39..47).contains(&at) && lowest <= 0x3000 {
            assert!(is_sound(&image), "byte {at}");
            continue;
        }
        assert!(!is_sound(&image), "byte {at}");
        assert_eq!(LentAllocator::from_image(&mut image).err(), Some(MemoryError::InvalidEntry), "byte {at}");
        assert_eq!(image, damaged, "the refusal changed bytes where byte {at} is damaged");
    }
}

#[test]
fn owned_and_lent_go_on_with_one_another() {
    let mut owned = with_three_ranges();
    let mut image = owned.image();
    let mut lent = LentAllocator::from_image(&mut image).unwrap();
    assert_eq!(lent.allocate(0x1000, 0), owned.allocate(0x1000, 0));
    assert_eq!(lent.reserve_memory(0x2000, 0x800, 0), owned.reserve_memory(0x2000, 0x800, 0));
    assert_eq!(lent.free(0x9000, 0x1000), owned.free(0x9000, 0x1000));
    assert_eq!(lent.free(0x9000, 0x1000), Err(MemoryError::InvalidRequest));
    assert!(lent.is_sound() && owned.is_sound());
    assert_eq!(lent.total(), owned.total());
    assert!(lent.ranges().eq(owned.ranges()));
    let (mut starts, mut lasts) = ([0; 256], [0; 256]);
    assert_eq!(lent.listing(&mut starts, &mut lasts), Ok(lent.ranges().count()));
    assert_eq!(image, owned.image());
    assert_eq!(MemoryAllocator::from_image(&image).map(|copy| copy.total()), Ok(owned.total()));
}
