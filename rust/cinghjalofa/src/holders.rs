//! The two allocators that know who holds what: one owns its image, one is lent it.

use crate::held::HeldRanges;
use crate::holder_calls::{self, Image, EMPTY};
use crate::ranges::FreeRanges;
use crate::{HolderError, HOLDERS_IMAGE_BYTES};

/// An allocator that keeps one guest's bytes from another's: beside the free ranges it has a register of up to
/// [`HELD_RANGES`](crate::HELD_RANGES) held ones, each of a holder, 1 to [`HOLDERS`](crate::HOLDERS).
///
/// Bytes come in by [`offer`](Self::offer) alone, which names no holder. A holder takes them, and gives a range back exactly as it was handed
/// out. Each call asks first whether allocator and register are sound, so that a stray write is answered `InvalidEntry`. It is not
/// `Clone`: two copies would hand out the same bytes.
///
/// ```
/// use cinghjalofa::{HeldRange, HolderAllocator, HolderError};
///
/// let mut memory = HolderAllocator::new();
/// memory.offer(0x10000, 0x10000)?;
/// assert_eq!(memory.allocate(1, 0x1000, 12), Ok(0x10000));
/// assert_eq!(memory.allocate(2, 0x2000, 12), Ok(0x11000));
/// assert_eq!(memory.free(2, 0x10000, 0x1000), Err(HolderError::NotYours));
/// assert!(memory.holdings(2).eq([HeldRange { holder: 2, start: 0x11000, last: 0x12fff }]));
/// memory.free(1, 0x10000, 0x1000)?;
/// # Ok::<(), HolderError>(())
/// ```
pub struct HolderAllocator {
    image: Image,
}

/// The same over an image that somebody else keeps.
///
/// It cannot be made over bytes that are not sound, and while it lives nobody else can change them.
///
/// ```
/// use cinghjalofa::{HolderError, LentHolderAllocator, HOLDERS_IMAGE_BYTES};
///
/// let mut pages = [0xaa; 8192];
/// let image = &mut pages[..HOLDERS_IMAGE_BYTES];
/// assert_eq!(LentHolderAllocator::from_image(image).err(), Some(HolderError::InvalidEntry));
///
/// LentHolderAllocator::new(image)?.offer(0x10000, 0x10000)?;
/// let mut again = LentHolderAllocator::from_image(image)?;
/// assert_eq!(again.allocate(16, 0x1000, 0), Ok(0x10000));
/// assert_eq!(again.total(), 0xf000);
/// # Ok::<(), HolderError>(())
/// ```
pub struct LentHolderAllocator<'a> {
    image: &'a mut Image,
}

/// Whether the bytes are the image of a sound allocator with a sound register.
///
/// ```
/// use cinghjalofa::{is_sound_with_holders, HolderAllocator, MemoryAllocator};
///
/// assert!(is_sound_with_holders(HolderAllocator::new().image()));
/// assert!(!is_sound_with_holders(&MemoryAllocator::new().image())); // it has no register
/// ```
pub fn is_sound_with_holders(image: &[u8]) -> bool {
    holder_calls::is_sound(image)
}

impl HolderAllocator {
    /// Nothing is free, and nothing held. It needs no call, so a `static` may hold it.
    pub const fn new() -> Self {
        Self { image: EMPTY }
    }

    /// The allocator of an image, or `InvalidEntry` where the bytes are not sound.
    pub fn from_image(image: &[u8]) -> Result<Self, HolderError> {
        let mut own = match <&Image>::try_from(image) {
            Ok(image) => Self { image: *image },
            Err(_) => return Err(HolderError::InvalidEntry),
        };
        if holder_calls::is_sound_in(&mut own.image) {
            Ok(own)
        } else {
            Err(HolderError::InvalidEntry)
        }
    }

    /// The image, to be stored or handed over.
    pub const fn image(&self) -> &[u8; HOLDERS_IMAGE_BYTES] {
        &self.image
    }

    /// The board offers bytes: they become free. `InvalidRequest` where one of them is free already, `NotYours` where one is held.
    pub fn offer(&mut self, start: usize, size: usize) -> Result<(), HolderError> {
        holder_calls::offer(&mut self.image, start, size)
    }

    /// Takes bytes for a holder, as [`MemoryAllocator::allocate`](crate::MemoryAllocator::allocate) does, and returns their address.
    /// `InvalidRequest` for a number that is no holder's; `RegisterFull`, after all other reasons, where as many ranges are held as
    /// there can be.
    pub fn allocate(&mut self, holder: usize, size: usize, align_order: usize) -> Result<usize, HolderError> {
        holder_calls::allocate(&mut self.image, holder, size, align_order)
    }

    /// Takes these bytes, widened to multiples of 2^`align_order`, for a holder, as
    /// [`MemoryAllocator::reserve_memory`](crate::MemoryAllocator::reserve_memory) does. What is held, and is given back, is the widened range.
    ///
    /// ```
    /// use cinghjalofa::{HolderAllocator, HolderError};
    ///
    /// let mut memory = HolderAllocator::new();
    /// memory.offer(0x10000, 0x10000)?;
    /// memory.reserve_memory(3, 0x12345, 0x10, 12)?;
    /// assert_eq!(memory.free(3, 0x12345, 0x10), Err(HolderError::NotYours));
    /// memory.free(3, 0x12000, 0x1000)?;
    /// # Ok::<(), HolderError>(())
    /// ```
    pub fn reserve_memory(
        &mut self,
        holder: usize,
        start_address: usize,
        size: usize,
        align_order: usize,
    ) -> Result<(), HolderError> {
        holder_calls::reserve_memory(&mut self.image, holder, start_address, size, align_order)
    }

    /// A holder gives a range back, exactly as it was handed out. Of anything else it is told `NotYours`, or `InvalidRequest` where a byte
    /// of it is free already. A range that touches no free one needs a record: `NoEntry` where all are in use, and it stays held.
    pub fn free(&mut self, holder: usize, start: usize, size: usize) -> Result<(), HolderError> {
        holder_calls::free(&mut self.image, holder, start, size)
    }

    /// The number of free bytes. It is 0 of a state that is not sound, too: [`HolderAllocator::is_sound`] tells.
    pub fn total(&self) -> usize {
        holder_calls::total(&self.image)
    }

    /// See [`MemoryAllocator::lowest`](crate::MemoryAllocator::lowest): the least number of free bytes after any accepted call since the first
    /// accepted offer. What is refused, `NotYours` and `RegisterFull` too, leaves it.
    pub fn lowest(&self) -> Option<usize> {
        holder_calls::lowest(&self.image)
    }

    /// The free ranges by address, as they are now.
    pub fn ranges(&self) -> FreeRanges {
        holder_calls::ranges(&self.image)
    }

    /// Every held range, by address.
    ///
    /// ```
    /// use cinghjalofa::{HeldRange, HolderAllocator, HolderError};
    ///
    /// let mut memory = HolderAllocator::new();
    /// memory.offer(0x10000, 0x10000)?;
    /// memory.reserve_memory(2, 0x18000, 0x1000, 0)?;
    /// memory.allocate(1, 0x1000, 0)?;
    /// let ranges: Vec<HeldRange> = memory.held().collect();
    /// assert_eq!(format!("{ranges:?}"), "[2: 0x18000..=0x18fff, 1: 0x19000..=0x19fff]"); // by address
    /// let held: usize = memory.held().map(|range| range.size()).sum();
    /// assert_eq!(memory.total() + held, 0x10000); // what was offered
    /// # Ok::<(), HolderError>(())
    /// ```
    pub fn held(&self) -> HeldRanges<'_> {
        holder_calls::held(&self.image, None)
    }

    /// The ranges of one holder, by address: no call of another changes them. Of a number that is no holder's there are none.
    pub fn holdings(&self, holder: usize) -> HeldRanges<'_> {
        holder_calls::held(&self.image, Some(holder))
    }

    /// The proved check, run again: false only where something wrote over the allocator's memory.
    pub fn is_sound(&self) -> bool {
        holder_calls::is_sound(&self.image)
    }
}

impl<'a> LentHolderAllocator<'a> {
    /// Writes the empty allocator, with an empty register, over whatever is there; `InvalidEntry` where the slice has not
    /// [`HOLDERS_IMAGE_BYTES`] bytes.
    pub fn new(image: &'a mut [u8]) -> Result<Self, HolderError> {
        holder_calls::new(image)?;
        Self::over(image)
    }

    /// Goes on with the allocator that is there; `InvalidEntry`, and no byte changed, where it is not sound.
    pub fn from_image(image: &'a mut [u8]) -> Result<Self, HolderError> {
        if !holder_calls::is_sound_in(image) {
            return Err(HolderError::InvalidEntry);
        }
        Self::over(image)
    }

    fn over(image: &'a mut [u8]) -> Result<Self, HolderError> {
        match image.try_into() {
            Ok(image) => Ok(Self { image }),
            Err(_) => Err(HolderError::InvalidEntry),
        }
    }

    /// See [`HolderAllocator::image`].
    pub const fn image(&self) -> &[u8; HOLDERS_IMAGE_BYTES] {
        self.image
    }

    /// See [`HolderAllocator::offer`].
    pub fn offer(&mut self, start: usize, size: usize) -> Result<(), HolderError> {
        holder_calls::offer(self.image, start, size)
    }

    /// See [`HolderAllocator::allocate`].
    pub fn allocate(&mut self, holder: usize, size: usize, align_order: usize) -> Result<usize, HolderError> {
        holder_calls::allocate(self.image, holder, size, align_order)
    }

    /// See [`HolderAllocator::reserve_memory`].
    pub fn reserve_memory(
        &mut self,
        holder: usize,
        start_address: usize,
        size: usize,
        align_order: usize,
    ) -> Result<(), HolderError> {
        holder_calls::reserve_memory(self.image, holder, start_address, size, align_order)
    }

    /// See [`HolderAllocator::free`].
    pub fn free(&mut self, holder: usize, start: usize, size: usize) -> Result<(), HolderError> {
        holder_calls::free(self.image, holder, start, size)
    }

    /// See [`HolderAllocator::total`].
    pub fn total(&self) -> usize {
        holder_calls::total(self.image)
    }

    /// See [`HolderAllocator::lowest`].
    pub fn lowest(&self) -> Option<usize> {
        holder_calls::lowest(self.image)
    }

    /// See [`HolderAllocator::ranges`].
    pub fn ranges(&self) -> FreeRanges {
        holder_calls::ranges(self.image)
    }

    /// See [`HolderAllocator::held`].
    pub fn held(&self) -> HeldRanges<'_> {
        holder_calls::held(self.image, None)
    }

    /// See [`HolderAllocator::holdings`].
    pub fn holdings(&self, holder: usize) -> HeldRanges<'_> {
        holder_calls::held(self.image, Some(holder))
    }

    /// See [`HolderAllocator::is_sound`].
    pub fn is_sound(&self) -> bool {
        holder_calls::is_sound(self.image)
    }
}

impl Default for HolderAllocator {
    fn default() -> Self {
        Self::new()
    }
}
