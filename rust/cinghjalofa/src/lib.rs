#![doc = include_str!("../README.md")]
#![no_std]
#![deny(missing_docs)]

#[cfg(not(target_pointer_width = "64"))]
compile_error!("cinghjalofa: addresses have 64 bits");

mod calls;
mod error;
mod held;
mod holder_calls;
mod holder_error;
mod holders;
pub mod journal;
mod list;
mod owned;
mod ranges;
mod show;

pub use error::{MemoryError, UnknownNumber};
pub use held::{HeldRange, HeldRanges};
pub use holder_error::HolderError;
pub use holders::{is_sound_with_holders, HolderAllocator, LentHolderAllocator};
pub use list::{Call, CallAnswer};
pub use owned::{MemoryAllocator, UncheckedAllocator};
pub use ranges::{FreeRange, FreeRanges};

use core::alloc::Layout;

/// The length of an image, version 3 of its layout.
pub const IMAGE_BYTES: usize = calls::IMAGE_BYTES;

/// The free ranges that there can be: each has a record.
pub const RECORDS: usize = calls::RECORDS;

/// The length of an image with a register of holders, version 1 of its layout.
pub const HOLDERS_IMAGE_BYTES: usize = holder_calls::HOLDERS_IMAGE_BYTES;

/// Holders are 1 to this number.
pub const HOLDERS: usize = holder_calls::HOLDERS as usize;

/// The held ranges that there can be, of all holders together.
pub const HELD_RANGES: usize = holder_calls::HELD_RANGES;

/// The bytes of a page.
pub const PAGE_BYTES: usize = calls::PAGE_BYTES as usize;

pub(crate) type Image = [u8; IMAGE_BYTES];

/// The allocator over an image that somebody else keeps, in a page shared with a boot loader for instance.
///
/// It cannot be made over bytes that are not sound, and while it lives nobody else can change them.
///
/// ```
/// use cinghjalofa::{LentAllocator, MemoryError, IMAGE_BYTES};
///
/// let mut pages = [0xaa; 8192];
/// let image = &mut pages[..IMAGE_BYTES];
/// assert_eq!(LentAllocator::from_image(image).err(), Some(MemoryError::InvalidEntry));
///
/// LentAllocator::new(image)?.free(0x10000, 0x10000)?;
/// let mut again = LentAllocator::from_image(image)?;
/// assert_eq!(again.allocate(0x1000, 0), Ok(0x10000));
/// assert_eq!(again.total(), 0xf000);
/// # Ok::<(), MemoryError>(())
/// ```
pub struct LentAllocator<'a> {
    image: &'a mut Image,
}

/// Whether the bytes are the image of a sound allocator: only such an image has a total.
///
/// ```
/// let image = cinghjalofa::MemoryAllocator::new().image();
/// assert!(cinghjalofa::is_sound(&image));
/// assert!(!cinghjalofa::is_sound(&image[1..]));
/// ```
pub fn is_sound(image: &[u8]) -> bool {
    calls::is_image(image)
}

/// The current image of the state whose image `old` is, of any version: version 1, of 64 records in 1370 bytes, version 2, of 256 in 6439,
/// or the current one, which comes out as it went in. The free ranges keep their records and their orders, and an older image gets the total as its lowest
/// figure. `InvalidEntry` where `old` is none of a sound allocator.
///
/// ```
/// let image = cinghjalofa::MemoryAllocator::new().image();
/// assert_eq!(cinghjalofa::upgrade(&image), Ok(image));
/// assert_eq!(cinghjalofa::upgrade(&image[1..]), Err(cinghjalofa::MemoryError::InvalidEntry));
/// ```
pub fn upgrade(old: &[u8]) -> Result<[u8; IMAGE_BYTES], MemoryError> {
    let mut image = [0; IMAGE_BYTES];
    calls::upgrade(old, &mut image)?;
    Ok(image)
}

impl<'a> LentAllocator<'a> {
    /// Writes the empty allocator over whatever is there; `InvalidEntry` where the slice has not
    /// [`IMAGE_BYTES`] bytes.
    pub fn new(image: &'a mut [u8]) -> Result<Self, MemoryError> {
        calls::new(image)?;
        Self::over(image)
    }

    /// Goes on with the allocator that is there; `InvalidEntry`, and no byte changed, where it is not sound.
    pub fn from_image(image: &'a mut [u8]) -> Result<Self, MemoryError> {
        if !is_sound(image) {
            return Err(MemoryError::InvalidEntry);
        }
        Self::over(image)
    }

    fn over(image: &'a mut [u8]) -> Result<Self, MemoryError> {
        match image.try_into() {
            Ok(image) => Ok(Self { image }),
            Err(_) => Err(MemoryError::InvalidEntry),
        }
    }

    /// See [`MemoryAllocator::allocate`].
    pub fn allocate(&mut self, size: usize, align_order: usize) -> Result<usize, MemoryError> {
        calls::allocate(self.image, size, align_order)
    }

    /// See [`MemoryAllocator::allocate_layout`].
    pub fn allocate_layout(&mut self, layout: Layout) -> Result<usize, MemoryError> {
        self.allocate(layout.size(), owned::order_of(layout))
    }

    /// See [`MemoryAllocator::reserve_memory`].
    pub fn reserve_memory(&mut self, start_address: usize, size: usize, align_order: usize) -> Result<(), MemoryError> {
        calls::reserve_memory(self.image, start_address, size, align_order)
    }

    /// See [`MemoryAllocator::free`].
    pub fn free(&mut self, start: usize, size: usize) -> Result<(), MemoryError> {
        calls::free(self.image, start, size)
    }

    /// See [`MemoryAllocator::allocate_pages`].
    pub fn allocate_pages(&mut self, count: usize, align_order: usize) -> Result<usize, MemoryError> {
        calls::allocate_pages(self.image, count, align_order)
    }

    /// See [`MemoryAllocator::free_pages`].
    pub fn free_pages(&mut self, address: usize, count: usize) -> Result<(), MemoryError> {
        calls::free_pages(self.image, address, count)
    }

    /// See [`MemoryAllocator::map_address_stage2`].
    #[allow(clippy::too_many_arguments)]
    pub fn map_address_stage2(
        &mut self,
        arena: &mut [u64],
        base: usize,
        vttbr_el2: u64,
        vtcr_el2: u64,
        physical_address: usize,
        intermediate_physical_address: usize,
        map_size: usize,
        is_readable: bool,
        is_writable: bool,
    ) -> Result<(), MemoryError> {
        let (output, input) = (physical_address, intermediate_physical_address);
        calls::map_address_stage2(
            self.image,
            arena,
            base,
            vttbr_el2,
            vtcr_el2,
            output,
            input,
            map_size,
            is_readable,
            is_writable,
        )
    }

    /// See [`MemoryAllocator::serve`].
    pub fn serve(&mut self, list: &[Call], answers: &mut [CallAnswer]) -> Result<(), MemoryError> {
        list::serve(list, answers, |words, places| calls::batch(self.image, words, places))
    }

    /// See [`MemoryAllocator::total`].
    pub fn total(&self) -> usize {
        calls::total(self.image)
    }

    /// See [`MemoryAllocator::lowest`].
    pub fn lowest(&self) -> Option<usize> {
        calls::lowest(self.image)
    }

    /// See [`MemoryAllocator::ranges`].
    pub fn ranges(&self) -> FreeRanges {
        FreeRanges::of(|starts, lasts| calls::listing(self.image, starts, lasts))
    }

    /// See [`MemoryAllocator::listing`].
    pub fn listing(&self, starts: &mut [usize], lasts: &mut [usize]) -> Result<usize, MemoryError> {
        ranges::listing(starts, lasts, |starts, lasts| calls::listing(self.image, starts, lasts))
    }

    /// See [`MemoryAllocator::is_sound`].
    pub fn is_sound(&self) -> bool {
        is_sound(self.image)
    }
}

/// The free ranges by address.
impl IntoIterator for &LentAllocator<'_> {
    type Item = FreeRange;
    type IntoIter = FreeRanges;

    fn into_iter(self) -> FreeRanges {
        self.ranges()
    }
}
