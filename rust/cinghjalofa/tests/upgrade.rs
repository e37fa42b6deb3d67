//! Images of version 1, 64 records with links of one byte, and of version 2, without the lowest figure, become images of now with the same free ranges; the
//! total stands for the figure.

use cinghjalofa::{upgrade, MemoryAllocator, MemoryError, IMAGE_BYTES};

const OLD_BYTES: usize = 1370;
const SECOND_BYTES: usize = 6439;

/// The same state in version 1: of each link the low byte, since no record above 63 is used.
fn as_version_1(image: &[u8; IMAGE_BYTES]) -> [u8; OLD_BYTES] {
    let mut old = [0; OLD_BYTES];
    let narrow = |from: &[u8], to: &mut [u8]| {
        from.chunks_exact(2).zip(to).for_each(|(link, byte)| *byte = link[1]);
    };
    old[0] = 1;
    old[1..5].copy_from_slice(&1365_u32.to_be_bytes());
    old[5..13].copy_from_slice(&image[5..13]);
    narrow(&image[13..39], &mut old[13..26]);
    for (from, to) in image[47..].chunks_exact(25).zip(old[26..].chunks_exact_mut(21)) {
        to[..17].copy_from_slice(&from[..17]);
        narrow(&from[17..], &mut to[17..]);
    }
    old
}

/// The same state in version 2.
fn as_version_2(image: &[u8; IMAGE_BYTES]) -> [u8; SECOND_BYTES] {
    let mut old = [0; SECOND_BYTES];
    old[..39].copy_from_slice(&image[..39]);
    old[39..].copy_from_slice(&image[47..]);
    old[0] = 2;
    old[1..5].copy_from_slice(&6434_u32.to_be_bytes());
    old
}

/// The same state, with the total as the lowest figure.
fn with_total(image: &[u8; IMAGE_BYTES]) -> [u8; IMAGE_BYTES] {
    let mut told = *image;
    told[39..47].copy_from_slice(&image[5..13]);
    told
}

#[test]
fn older_versions_keep_their_ranges_and_their_records() {
    let mut memory = MemoryAllocator::new();
    for k in (0..60).rev() {
        let image = memory.image();
        assert_eq!(upgrade(&as_version_1(&image)), Ok(with_total(&image)), "{k} ranges are still to come");
        assert_eq!(upgrade(&as_version_2(&image)), Ok(with_total(&image)), "{k} ranges are still to come");
        memory.free(0x4000 * (k * 7 % 60), 0x1000 + k).unwrap();
    }
    memory.allocate(0x800, 12).unwrap();
    assert_eq!(upgrade(&as_version_1(&memory.image())), Ok(with_total(&memory.image())));
}

#[test]
fn an_older_empty_image_has_been_down_to_0() {
    let image = MemoryAllocator::new().image();
    for upgraded in [upgrade(&as_version_1(&image)), upgrade(&as_version_2(&image))] {
        assert_eq!(MemoryAllocator::from_image(&upgraded.unwrap()).unwrap().lowest(), Some(0));
    }
    assert_eq!(MemoryAllocator::from_image(&upgrade(&image).unwrap()).unwrap().lowest(), None);
}

#[test]
fn version_2_is_no_image_of_now() {
    let old = as_version_2(&MemoryAllocator::new().image());
    assert_eq!(MemoryAllocator::from_image(&old).err(), Some(MemoryError::InvalidEntry));
}

#[test]
fn a_full_version_1_goes_on_in_record_64() {
    let mut memory = MemoryAllocator::new();
    (1..=64).for_each(|k| memory.free(8192 * k, 4096).unwrap());
    let image = upgrade(&as_version_1(&memory.image())).unwrap();
    let mut again = MemoryAllocator::from_image(&image).unwrap();
    again.free(532480, 4096).unwrap();
    assert_eq!(again.image()[47 + 25 * 64 + 16], 1);
    assert_eq!(again.ranges().count(), 65);
}

#[test]
fn what_is_no_image_is_refused() {
    let mut old = as_version_1(&MemoryAllocator::new().image());
    assert!(upgrade(&old).is_ok());
    for length in [0, 1, OLD_BYTES - 1] {
        assert_eq!(upgrade(&old[..length]), Err(MemoryError::InvalidEntry), "{length} bytes");
    }
    for at in [0, 4, 12, 13, 25, 26, 42, 43, OLD_BYTES - 1] {
        old[at] ^= 1;
        assert_eq!(upgrade(&old), Err(MemoryError::InvalidEntry), "byte {at}");
        old[at] ^= 1;
    }
}
