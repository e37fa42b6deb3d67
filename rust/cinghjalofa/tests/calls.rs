//! What the table of cases has not: the crate's names of refusals, images, and the slices of a listing.

use cinghjalofa::{MemoryAllocator, MemoryError, IMAGE_BYTES, PAGE_BYTES};

/// An allocator to which these ranges, as start and size, were given.
fn with_free(ranges: &[(usize, usize)]) -> MemoryAllocator {
    let mut memory = MemoryAllocator::new();
    for &(start, size) in ranges {
        assert_eq!(memory.free(start, size), Ok(()), "free {start} {size}");
    }
    memory
}

#[test]
fn each_refusal_has_its_name() {
    let mut memory = MemoryAllocator::new();
    assert_eq!(memory.allocate(1, 0), Err(MemoryError::NoMemory));
    assert_eq!(memory.free_pages(PAGE_BYTES / 2, 1), Err(MemoryError::InvalidRequest));
    assert_eq!((0..).find_map(|k| memory.free(2 * k, 1).err()), Some(MemoryError::NoEntry));
    assert_eq!(MemoryAllocator::from_image(&[]).err(), Some(MemoryError::InvalidEntry));
}

/// The image, with this lowest figure.
fn lowered(memory: &MemoryAllocator, lowest: u64) -> [u8; IMAGE_BYTES] {
    let mut image = memory.image();
    image[39..47].copy_from_slice(&lowest.to_be_bytes());
    image
}

/// Each takes the last free bytes in another way. What is left is the image of `new` but for the lowest figure, and it goes on as one.
#[test]
fn an_emptied_allocator_is_a_new_one() {
    let takes: [fn(&mut MemoryAllocator) -> bool; 4] = [
        |memory| memory.allocate(4096, 12) == Ok(4096),
        |memory| memory.reserve_memory(4096, 4096, 0).is_ok(),
        |memory| memory.reserve_memory(5000, 1, 12).is_ok(),
        |memory| memory.allocate_pages(1, 0) == Ok(4096),
    ];
    for (number, take) in takes.iter().enumerate() {
        let mut memory = with_free(&[(65536, 2), (4096, 4096)]);
        assert_eq!(memory.reserve_memory(65536, 2, 0), Ok(()));
        assert!(take(&mut memory), "take {number}");
        assert_eq!((memory.total(), memory.image()), (0, lowered(&MemoryAllocator::new(), 0)), "take {number}");
        assert_eq!(memory.allocate(1, 0), Err(MemoryError::NoMemory));
        assert_eq!(memory.free(9000, 7), Ok(()));
        assert_eq!(memory.image(), lowered(&with_free(&[(9000, 7)]), 0), "take {number}");
    }
}

#[test]
fn a_listing_writes_all_or_nothing() {
    let memory = with_free(&[(40960, 4096), (8192, 4096)]);
    let (mut starts, mut lasts) = ([7; 3], [7; 3]);
    for (short, long) in [(1, 3), (3, 1), (0, 0)] {
        let answer = memory.listing(&mut starts[..short], &mut lasts[..long]);
        assert_eq!(answer, Err(MemoryError::InvalidRequest));
    }
    assert_eq!((starts, lasts), ([7; 3], [7; 3]));
    assert_eq!(memory.listing(&mut starts, &mut lasts), Ok(2));
    assert_eq!((starts, lasts), ([8192, 40960, 7], [12287, 45055, 7]));
    assert_eq!(memory.listing(&mut starts[..2], &mut lasts[..2]), Ok(2));
    assert_eq!(MemoryAllocator::new().listing(&mut [], &mut []), Ok(0));
}
