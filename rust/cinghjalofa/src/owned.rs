//! The two allocators that own their state: one asks at each call whether it is sound, one does not.

use core::alloc::Layout;

use crate::calls::{figure, lowest_figure, result_of, Own, ALLOCATE, ALLOCATE_PAGES, FREE, FREE_PAGES, RESERVE};
use crate::list::{self, Call, CallAnswer};
use crate::ranges::{self, FreeRange, FreeRanges};
use crate::{MemoryError, IMAGE_BYTES};

/// The allocator, with its state inside: what MiniVisor's `MemoryAllocator` is replaced by.
///
/// Each call asks first whether the state is sound. So a stray write into the allocator's memory is answered
/// `InvalidEntry`, unless it happens to make another sound state. It is not `Clone`: two copies would hand out the same bytes.
///
/// ```
/// use cinghjalofa::{MemoryAllocator, MemoryError};
///
/// let mut memory = MemoryAllocator::new();
/// memory.free(0x10000, 0x10000)?;
/// assert_eq!(memory.allocate(0x1000, 0), Ok(0x10000));
/// assert_eq!(memory.allocate(0x2000, 14), Ok(0x14000));
/// assert_eq!(memory.allocate(0x10000, 0), Err(MemoryError::NoMemory));
/// # Ok::<(), MemoryError>(())
/// ```
pub struct MemoryAllocator {
    own: Own,
}

/// The same allocator, with the same calls and answers, which trusts its memory: no call but a list asks whether the state is
/// sound, and so each takes less time than the module's.
///
/// The state is private, it is made by `new` or by a checked `from_image`, and proved calls alone change it: so it is sound,
/// unless something writes over the allocator's memory, by `unsafe` code or from outside the program. After such a write
/// nothing is promised. [`UncheckedAllocator::is_sound`] asks.
///
/// ```
/// use cinghjalofa::{MemoryError, UncheckedAllocator};
///
/// let mut memory = UncheckedAllocator::new();
/// memory.free(0x10000, 0x10000)?;
/// assert_eq!(memory.allocate(0x1000, 0), Ok(0x10000));
/// assert!(memory.is_sound()); // as often as the author likes
/// # Ok::<(), MemoryError>(())
/// ```
pub struct UncheckedAllocator {
    own: Own,
}

impl MemoryAllocator {
    /// The empty allocator. It needs no call, so a `static` may hold it.
    pub const fn new() -> Self {
        Self { own: Own::new() }
    }

    /// The allocator of an image, or `InvalidEntry` where the bytes are not sound.
    pub fn from_image(image: &[u8]) -> Result<Self, MemoryError> {
        let mut own = Own::new();
        result_of(own.import(image))?;
        Ok(Self { own })
    }

    /// The image, to be stored or handed over. Of a state that is not sound there is none: then all bytes are 0, which no
    /// reader takes.
    pub fn image(&self) -> [u8; IMAGE_BYTES] {
        let mut image = [0; IMAGE_BYTES];
        self.own.export(&mut image);
        image
    }

    /// Takes `size` bytes at a multiple of 2^`align_order` (0: anywhere) from the smallest free range that fits, of equal
    /// ones from the one that got its size last, and returns their address. A range that would fall into two is passed over
    /// where all records are in use.
    #[inline]
    pub fn allocate(&mut self, size: usize, align_order: usize) -> Result<usize, MemoryError> {
        self.call(ALLOCATE, size, align_order, 0)
    }

    /// Takes as many bytes as a value of this layout has, at a multiple of its alignment. A layout of size 0 is `InvalidRequest`. They
    /// are given back by [`MemoryAllocator::free`], with the layout's size.
    ///
    /// ```
    /// use core::alloc::Layout;
    ///
    /// let mut memory = cinghjalofa::MemoryAllocator::new();
    /// memory.free(0x10008, 0x10000).unwrap();
    /// let table = Layout::from_size_align(0x1000, 0x1000).unwrap();
    /// assert_eq!(memory.allocate_layout(table), Ok(0x11000));
    /// assert_eq!(memory.allocate_layout(Layout::new::<u32>()), Ok(0x10008));
    /// ```
    #[inline]
    pub fn allocate_layout(&mut self, layout: Layout) -> Result<usize, MemoryError> {
        self.allocate(layout.size(), order_of(layout))
    }

    /// Takes these bytes, widened to multiples of 2^`align_order`, out of the free range that holds them all.
    #[inline]
    pub fn reserve_memory(&mut self, start_address: usize, size: usize, align_order: usize) -> Result<(), MemoryError> {
        self.call(RESERVE, start_address, size, align_order).map(|_| ())
    }

    /// Gives bytes to the allocator, none of which may be free already.
    #[inline]
    pub fn free(&mut self, start: usize, size: usize) -> Result<(), MemoryError> {
        self.call(FREE, start, size, 0).map(|_| ())
    }

    /// Takes `count` pages at a multiple of [`PAGE_BYTES`](crate::PAGE_BYTES) and of 2^`align_order`, and returns the address
    /// of the first byte: what [`MemoryAllocator::allocate`] answers to as many bytes at an order of at least 12.
    /// `InvalidRequest` for 0 pages, for more than 2^51, and for an order above 63.
    ///
    /// ```
    /// let mut memory = cinghjalofa::MemoryAllocator::new();
    /// memory.free_pages(0x10000, 16).unwrap();
    /// assert_eq!(memory.allocate_pages(1, 0), Ok(0x10000));
    /// assert_eq!(memory.allocate_pages(2, 14), Ok(0x14000));
    /// ```
    #[inline]
    pub fn allocate_pages(&mut self, count: usize, align_order: usize) -> Result<usize, MemoryError> {
        self.call(ALLOCATE_PAGES, count, align_order, 0)
    }

    /// Gives `count` pages to the allocator, no byte of which may be free already. `InvalidRequest` for an address that is
    /// no multiple of [`PAGE_BYTES`](crate::PAGE_BYTES), for 0 pages, and for more than 2^51.
    #[inline]
    pub fn free_pages(&mut self, address: usize, count: usize) -> Result<(), MemoryError> {
        self.call(FREE_PAGES, address, count, 0).map(|_| ())
    }

    /// Maps `map_size` bytes of stage 2 inputs, from `intermediate_physical_address` on, to the outputs from `physical_address` on, in
    /// the tables that VTTBR_EL2 and VTCR_EL2 name: mapped addresses translate as asked, all others as before. Fresh tables are pages
    /// of this allocator. `arena` is the memory in which all tables and all free bytes lie, and `base` the address of its first byte.
    /// After `Ok` the caller flushes the TLB. A refusal changes neither the allocator nor a word of the arena.
    ///
    /// `InvalidRequest` for registers, sizes and addresses that cannot be, and for a block that stands where a table is wanted;
    /// `InvalidEntry` for a table or a free byte outside the arena, and for a table that is reached twice or is on free bytes.
    ///
    /// ```
    /// let mut arena = vec![0u64; 16 * 512];
    /// let mut memory = cinghjalofa::MemoryAllocator::new();
    /// memory.free_pages(0x4000_8000, 8).unwrap();
    /// memory.map_address_stage2(&mut arena, 0x4000_0000, 0x4000_0000, 0x60, 0x8000_0000, 0x1000, 4096, true, true).unwrap();
    /// assert_eq!(arena[0], 0x4000_8403); // a table at the first free page, and one below it
    /// assert_eq!(arena[9 * 512 + 1], 0x8000_07ff);
    /// ```
    #[allow(clippy::too_many_arguments)]
    pub fn map_address_stage2(
        &mut self,
        arena: &mut [u64],
        base: usize,
        vttbr_el2: u64,
        vtcr_el2: u64,
        physical_address: usize,
        intermediate_physical_address: usize,
        map_size: usize,
        is_readable: bool,
        is_writable: bool,
    ) -> Result<(), MemoryError> {
        let mut image = self.image();
        let (output, input) = (physical_address, intermediate_physical_address);
        crate::calls::map_address_stage2(
            &mut image,
            arena,
            base,
            vttbr_el2,
            vtcr_el2,
            output,
            input,
            map_size,
            is_readable,
            is_writable,
        )?;
        result_of(self.own.import(&image)).map(|_| ())
    }

    /// Serves a list of calls in order, and writes the answer of each to its place: the state is checked once.
    /// The answers, and the state, are those of the calls made singly, wherever the list is cut.
    /// `InvalidRequest`, and nothing changed, where there are fewer places than calls; places past the list stay as they are.
    ///
    /// ```
    /// use cinghjalofa::{Call, CallAnswer, MemoryAllocator, MemoryError};
    ///
    /// let mut memory = MemoryAllocator::new();
    /// let calls = [Call::free(0x10000, 0x10000), Call::allocate(0x1000, 0), Call::free(0x10000, 0)];
    /// let mut answers = [CallAnswer::default(); 3];
    /// memory.serve(&calls, &mut answers)?;
    /// assert_eq!(answers[1].result(), Ok(0x10000));
    /// assert_eq!(answers[2].result(), Err(MemoryError::InvalidRequest));
    /// # Ok::<(), MemoryError>(())
    /// ```
    pub fn serve(&mut self, list: &[Call], answers: &mut [CallAnswer]) -> Result<(), MemoryError> {
        list::serve(list, answers, |words, places| self.own.batch(words, places))
    }

    /// The number of free bytes. It is 0 of a state that is not sound, too: [`MemoryAllocator::is_sound`] tells.
    pub fn total(&self) -> usize {
        figure(|figure| self.own.total(figure))
    }

    /// How near the allocator came to empty: the least number of free bytes after any accepted call since the first accepted free, of a list
    /// after each of its calls. Nothing raises it, handing back neither. `None` before the first free, and of a state that is not sound.
    ///
    /// ```
    /// let mut memory = cinghjalofa::MemoryAllocator::new();
    /// assert_eq!(memory.lowest(), None);
    /// memory.free(0, 0x2000).unwrap();
    /// assert_eq!(memory.allocate(0x1000, 0), Ok(0));
    /// memory.free(0, 0x1000).unwrap();
    /// assert_eq!((memory.total(), memory.lowest()), (0x2000, Some(0x1000)));
    /// ```
    pub fn lowest(&self) -> Option<usize> {
        lowest_figure(|figure| self.own.lowest(figure))
    }

    /// The free ranges by address, as they are now; a `for` over `&memory` goes through them too.
    ///
    /// ```
    /// use cinghjalofa::{FreeRange, MemoryAllocator};
    ///
    /// let mut memory = MemoryAllocator::new();
    /// memory.free(0x8000, 0x1000).unwrap();
    /// memory.free(0x2000, 0x1000).unwrap();
    /// let ranges = [FreeRange { start: 0x2000, last: 0x2fff }, FreeRange { start: 0x8000, last: 0x8fff }];
    /// assert!(memory.ranges().eq(ranges));
    /// assert_eq!(memory.ranges().len(), 2);
    /// assert_eq!(memory.ranges().next_back(), Some(ranges[1])); // the highest
    /// assert_eq!(format!("{:?}", memory.ranges()), "[0x2000..=0x2fff, 0x8000..=0x8fff]");
    /// ```
    pub fn ranges(&self) -> FreeRanges {
        FreeRanges::of(|starts, lasts| self.own.listing(starts, lasts))
    }

    /// Writes first and last bytes of the free ranges, by address, to two slices and returns their number.
    /// `InvalidRequest`, and nothing written, where a slice is too short; [`RECORDS`](crate::RECORDS) places are always enough.
    /// `InvalidEntry` where the state is not sound.
    ///
    /// ```
    /// let mut memory = cinghjalofa::MemoryAllocator::new();
    /// memory.free(0x8000, 0x1000).unwrap();
    /// let (mut starts, mut lasts) = ([0; cinghjalofa::RECORDS], [0; cinghjalofa::RECORDS]);
    /// assert_eq!(memory.listing(&mut starts, &mut lasts), Ok(1));
    /// assert_eq!((starts[0], lasts[0]), (0x8000, 0x8fff));
    /// ```
    pub fn listing(&self, starts: &mut [usize], lasts: &mut [usize]) -> Result<usize, MemoryError> {
        ranges::listing(starts, lasts, |starts, lasts| self.own.listing(starts, lasts))
    }

    /// The proved check, run again: false only where something wrote over the allocator's memory.
    pub fn is_sound(&self) -> bool {
        self.own.is_sound()
    }

    #[inline]
    fn call(&mut self, kind: u64, x: usize, y: usize, z: usize) -> Result<usize, MemoryError> {
        result_of(self.own.call(kind, x as u64, y as u64, z as u64))
    }
}

impl UncheckedAllocator {
    /// See [`MemoryAllocator::new`].
    pub const fn new() -> Self {
        Self { own: Own::new() }
    }

    /// See [`MemoryAllocator::from_image`]: the bytes are checked.
    pub fn from_image(image: &[u8]) -> Result<Self, MemoryError> {
        let mut own = Own::new();
        result_of(own.import(image))?;
        Ok(Self { own })
    }

    /// See [`MemoryAllocator::image`].
    pub fn image(&self) -> [u8; IMAGE_BYTES] {
        let mut image = [0; IMAGE_BYTES];
        self.own.export(&mut image);
        image
    }

    /// See [`MemoryAllocator::allocate`].
    #[inline]
    pub fn allocate(&mut self, size: usize, align_order: usize) -> Result<usize, MemoryError> {
        self.call(ALLOCATE, size, align_order, 0)
    }

    /// See [`MemoryAllocator::allocate_layout`].
    #[inline]
    pub fn allocate_layout(&mut self, layout: Layout) -> Result<usize, MemoryError> {
        self.allocate(layout.size(), order_of(layout))
    }

    /// See [`MemoryAllocator::reserve_memory`].
    #[inline]
    pub fn reserve_memory(&mut self, start_address: usize, size: usize, align_order: usize) -> Result<(), MemoryError> {
        self.call(RESERVE, start_address, size, align_order).map(|_| ())
    }

    /// See [`MemoryAllocator::free`].
    #[inline]
    pub fn free(&mut self, start: usize, size: usize) -> Result<(), MemoryError> {
        self.call(FREE, start, size, 0).map(|_| ())
    }

    /// See [`MemoryAllocator::allocate_pages`].
    #[inline]
    pub fn allocate_pages(&mut self, count: usize, align_order: usize) -> Result<usize, MemoryError> {
        self.call(ALLOCATE_PAGES, count, align_order, 0)
    }

    /// See [`MemoryAllocator::free_pages`].
    #[inline]
    pub fn free_pages(&mut self, address: usize, count: usize) -> Result<(), MemoryError> {
        self.call(FREE_PAGES, address, count, 0).map(|_| ())
    }

    /// See [`MemoryAllocator::serve`].
    pub fn serve(&mut self, list: &[Call], answers: &mut [CallAnswer]) -> Result<(), MemoryError> {
        list::serve(list, answers, |words, places| self.own.batch(words, places))
    }

    /// See [`MemoryAllocator::total`]; here the state is not checked.
    #[inline]
    pub fn total(&self) -> usize {
        self.own.total_unchecked() as usize
    }

    /// See [`MemoryAllocator::lowest`]: the state is checked.
    pub fn lowest(&self) -> Option<usize> {
        lowest_figure(|figure| self.own.lowest(figure))
    }

    /// See [`MemoryAllocator::ranges`].
    pub fn ranges(&self) -> FreeRanges {
        FreeRanges::of(|starts, lasts| self.own.listing(starts, lasts))
    }

    /// See [`MemoryAllocator::listing`].
    pub fn listing(&self, starts: &mut [usize], lasts: &mut [usize]) -> Result<usize, MemoryError> {
        ranges::listing(starts, lasts, |starts, lasts| self.own.listing(starts, lasts))
    }

    /// See [`MemoryAllocator::is_sound`].
    pub fn is_sound(&self) -> bool {
        self.own.is_sound()
    }

    #[inline]
    fn call(&mut self, kind: u64, x: usize, y: usize, z: usize) -> Result<usize, MemoryError> {
        result_of(self.own.call_unchecked(kind, x as u64, y as u64, z as u64))
    }
}

impl Default for MemoryAllocator {
    fn default() -> Self {
        Self::new()
    }
}

impl Default for UncheckedAllocator {
    fn default() -> Self {
        Self::new()
    }
}

/// The free ranges by address.
impl IntoIterator for &MemoryAllocator {
    type Item = FreeRange;
    type IntoIter = FreeRanges;

    fn into_iter(self) -> FreeRanges {
        self.ranges()
    }
}

/// The free ranges by address.
impl IntoIterator for &UncheckedAllocator {
    type Item = FreeRange;
    type IntoIter = FreeRanges;

    fn into_iter(self) -> FreeRanges {
        self.ranges()
    }
}

/// The order of a layout's alignment, which is a power of two.
#[inline]
pub(crate) fn order_of(layout: Layout) -> usize {
    layout.align().trailing_zeros() as usize
}
