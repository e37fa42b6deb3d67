//! A page that goes from a boot loader to a hypervisor: the allocator is its bytes, and whoever has them goes on.

use cinghjalofa::{is_sound, LentAllocator, MemoryAllocator, MemoryError, IMAGE_BYTES};

/// The boot loader begins, and hands over what it has taken.
fn boot_loader(page: &mut [u8]) -> Result<usize, MemoryError> {
    let mut memory = LentAllocator::new(page)?;
    memory.free(0x4000_0000, 0x10_0000)?;
    memory.allocate(0x1000, 12)
}

/// The hypervisor goes on: over the page, or with a state of its own that it makes of it.
fn hypervisor(page: &mut [u8]) -> Result<usize, MemoryError> {
    let mut lent = LentAllocator::from_image(page)?;
    lent.allocate(0x1000, 12)?;
    let mut own = MemoryAllocator::from_image(page)?;
    own.allocate(0x1000, 12)
}

fn main() -> Result<(), MemoryError> {
    let mut page = vec![0xaa; IMAGE_BYTES.next_power_of_two().max(4096)];
    let (image, rest) = page.split_at_mut(IMAGE_BYTES);
    assert_eq!(LentAllocator::from_image(image).err(), Some(MemoryError::InvalidEntry)); // nothing is there yet
    assert_eq!(boot_loader(image), Ok(0x4000_0000));
    assert_eq!(hypervisor(image), Ok(0x4000_2000));
    assert!(rest.iter().all(|&byte| byte == 0xaa)); // nothing is written behind it
    println!("{:?}", LentAllocator::from_image(image)?);
    image[5] ^= 1; // a stray write
    assert!(!is_sound(image));
    assert_eq!(hypervisor(image), Err(MemoryError::InvalidEntry));
    println!("a stray write is noticed: {}", MemoryError::InvalidEntry);
    Ok(())
}
