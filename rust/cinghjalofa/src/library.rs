// The memory-range allocator over a byte image that the caller lends, and over a state of the caller's own: the calls for Rust,
// `no_std`, in any edition from 2018 on.
// Take the file in as a module, by `#[path = ".."] mod cinghjalofa;` or `mod cinghjalofa { include!(".."); }`, and link
// with the static library.
//
// The image
//   The whole state lies in IMAGE_BYTES bytes of the caller's memory. The library keeps nothing between calls, allocates
//   nothing, reads no memory but what it is lent, and calls nothing but memcpy, memmove, memset and memcmp. An image may be copied, stored
//   and lent again at another address; the address may have any alignment. `new` makes the first image.
//
// The answer
//   0 or more: accepted. It is the address for the calls that allocate, bytes or pages, with a holder or without; the number of ranges for
//   a listing; a place in the journal for the calls that write or read one; a report for `audit`; and 0 for the others.
//   A list of calls has an answer of its own, and one for each of its calls.
//   Below 0: refused, for the first reason that applies in the order in which each function lists them. A refusal changes
//   no byte of what is lent. An accepted call writes what it is lent as `&mut` and nothing else.
//   A slice of another length is refused with -2 before anything else, and before a byte of it is read. An image that no
//   sound allocator writes (damaged, or of another version, an older one too) is refused with -2 before a bad request is with -4;
//   only a map looks at its numbers first.
//
// The functions over slices are safe: they ask nothing about contents or numbers and never panic. `&mut` keeps two calls
// over one image apart; the library itself takes no lock.
//
// Addresses run from 0 to 2^63-1 and sizes count bytes. An alignment order n, 0 to 63, means a multiple of 2^n. There are
// 256 records, one for each free range. The total is the number of free bytes, and the lowest figure the least total after any
// accepted call since the first accepted free. Sums are mathematical, never wrapped.

/// The length of an image, version 3 of its layout; a slice of any other length is refused. Version 1 had 1370 bytes and version 2
/// had 6439: `upgrade` reads them.
pub const IMAGE_BYTES: usize = 6447;

/// The lowest figure before the first accepted free.
pub const NEVER: u64 = u64::MAX;

/// The bytes of a page.
pub const PAGE_BYTES: u64 = 4096;
/// How many pages the addresses have.
pub const MOST_PAGES: u64 = 1 << 51;

/// A record is needed and none is unused.
pub const NO_ENTRY: i64 = -1;
/// The state, or the image, is not that of a sound allocator.
pub const INVALID_ENTRY: i64 = -2;
/// Too few free bytes, or no free range fits.
pub const NO_MEMORY: i64 = -3;
/// Size or count 0, order above 63, or a bad or overlapping range.
pub const INVALID_REQUEST: i64 = -4;
/// Not exactly a range handed to this holder; or an offer of held bytes.
pub const NOT_YOURS: i64 = -5;
/// The allocator would accept, and all entries of the register are used.
pub const REGISTER_FULL: i64 = -6;

/// Where the allocator's image stands in the image of an allocator with a register: behind 5 bytes, and 17 for each entry.
pub const HOLDERS_MEMORY: usize = 1093;
/// The length of such an image.
pub const HOLDERS_IMAGE_BYTES: usize = HOLDERS_MEMORY + IMAGE_BYTES;
/// Holders are 1 to 16.
pub const HOLDERS: u64 = 16;
/// Held ranges, of all holders together.
pub const HELD_RANGES: usize = 64;

/// The kinds of call in a list: a free has a start and a size,
pub const FREE: u64 = 1;
/// an allocation a size and an order,
pub const ALLOCATE: u64 = 2;
/// and a reserve a start, a size and an order.
pub const RESERVE: u64 = 3;

/// Two kinds more, of single calls on a state of one's own: pages, by their count and an order,
pub const ALLOCATE_PAGES: u64 = 4;
/// and pages that become free, by an address and their count.
pub const FREE_PAGES: u64 = 5;

/// The records, and the size lists.
pub const RECORDS: usize = 256;
pub const LISTS: usize = 12;
/// What a link is where there is none.
pub const NO_RECORD: u16 = u16::MAX;

/// The words of a call in a list: its kind, then its numbers as typed. A word that a call does not use is not looked at.
pub const CALL_WORDS: usize = 4;

/// The first byte of a journal.
pub const JOURNAL_VERSION: u8 = 1;
/// The words of a call with its answer: kind, three numbers (0 where the call has two), the answer's 64 bits.
pub const ENTRY_WORDS: usize = 5;
/// The bytes of the longest block of a journal.
pub const LONGEST_BLOCK: usize = 35;

/// What an audit reports: every answer is the one of the replay, and the figure is the final total;
pub const AGREES: i64 = 0;
/// or the figure is the index, from 0, of the first call whose answer differs,
pub const DIFFERS: i64 = 1;
/// of the block that the end of the journal cuts off,
pub const TRUNCATED: i64 = 2;
/// of a block with an unknown call byte,
pub const UNKNOWN_CALL: i64 = 3;
/// or of one with a length that is not its call's.
pub const WRONG_LENGTH: i64 = 4;

// From edition 2024 on a block of foreign functions is `unsafe`, which older compilers do not know; and from then on `_` is an
// expression.
macro_rules! foreign {
    ($edition:expr; $($functions:tt)*) => {
        unsafe extern "C" { $($functions)* }
    };
    (_; $($functions:tt)*) => {
        extern "C" { $($functions)* }
    };
}

// What a caller of these owes: `image` points to `len` bytes that may be read and written, and that nobody else reads or
// writes during the call. With `len` 0 it is not followed and may be null. So of `calls`, whose numbers are only read, and of
// `answers`; each is aligned as its numbers are, and the three do not overlap.
foreign! { _;
    pub fn cinghjalofa_new(image: *mut u8, len: usize) -> i64;
    fn cinghjalofa_upgrade(old: *const u8, old_len: usize, image: *mut u8, len: usize) -> i64;
    pub fn cinghjalofa_allocate(image: *mut u8, len: usize, size: u64, order: u64) -> i64;
    pub fn cinghjalofa_reserve_memory(image: *mut u8, len: usize, start: u64, size: u64, order: u64) -> i64;
    pub fn cinghjalofa_free(image: *mut u8, len: usize, start: u64, size: u64) -> i64;
    pub fn cinghjalofa_allocate_pages(image: *mut u8, len: usize, count: u64, order: u64) -> i64;
    pub fn cinghjalofa_free_pages(image: *mut u8, len: usize, address: u64, count: u64) -> i64;
    pub fn cinghjalofa_map_address_stage2(
        image: *mut u8,
        len: usize,
        arena: *mut u64,
        arena_words: usize,
        arena_base: u64,
        vttbr_el2: u64,
        vtcr_el2: u64,
        physical_address: u64,
        intermediate_physical_address: u64,
        map_size: u64,
        is_readable: bool,
        is_writable: bool,
    ) -> i64;
    pub fn cinghjalofa_batch(
        image: *mut u8,
        len: usize,
        calls: *const u64,
        words: usize,
        answers: *mut i64,
        places: usize,
    ) -> i64;
    pub fn cinghjalofa_total(image: *const u8, len: usize, total: *mut u64) -> i64;
    pub fn cinghjalofa_lowest(image: *const u8, len: usize, lowest: *mut u64) -> i64;
    pub fn cinghjalofa_listing(
        image: *const u8,
        len: usize,
        starts: *mut u64,
        starts_len: usize,
        lasts: *mut u64,
        lasts_len: usize,
    ) -> i64;
    pub fn cinghjalofa_holders_new(image: *mut u8, len: usize) -> i64;
    pub fn cinghjalofa_holders_offer(image: *mut u8, len: usize, start: u64, size: u64) -> i64;
    pub fn cinghjalofa_holders_allocate(image: *mut u8, len: usize, holder: u64, size: u64, order: u64) -> i64;
    pub fn cinghjalofa_holders_reserve_memory(
        image: *mut u8,
        len: usize,
        holder: u64,
        start: u64,
        size: u64,
        order: u64,
    ) -> i64;
    pub fn cinghjalofa_holders_free(image: *mut u8, len: usize, holder: u64, start: u64, size: u64) -> i64;
    pub fn cinghjalofa_journal_begin(journal: *mut u8, len: usize) -> i64;
    pub fn cinghjalofa_journal_write(
        journal: *mut u8,
        len: usize,
        at: u64,
        kind: u64,
        x: u64,
        y: u64,
        z: u64,
        answer: i64,
    ) -> i64;
    pub fn cinghjalofa_journal_read(journal: *const u8, len: usize, at: u64, entry: *mut u64, words: usize) -> i64;
    pub fn cinghjalofa_audit(journal: *const u8, len: usize, figure: *mut u64) -> i64;
}

// The eleven fields of a state of one's own, lent one by one: the lowest figure, the total, a first record, LISTS heads, and RECORDS of each of the others.
// A byte of `enabled` is 0 or 1. `Own` keeps them.
foreign! { _;
    fn cinghjalofa_fields_are_sound(
        lowest: u64,
        total: u64,
        first: u16,
        heads: *const u16,
        start: *const u64,
        end: *const u64,
        enabled: *const bool,
        previous: *const u16,
        next: *const u16,
        list_prev: *const u16,
        list_next: *const u16,
    ) -> bool;
    fn cinghjalofa_fields_call(
        lowest: *mut u64,
        total: *mut u64,
        first: *mut u16,
        heads: *mut u16,
        start: *mut u64,
        end: *mut u64,
        enabled: *mut bool,
        previous: *mut u16,
        next: *mut u16,
        list_prev: *mut u16,
        list_next: *mut u16,
        kind: u64,
        x: u64,
        y: u64,
        z: u64,
    ) -> i64;
    fn cinghjalofa_fields_call_unchecked(
        lowest: *mut u64,
        total: *mut u64,
        first: *mut u16,
        heads: *mut u16,
        start: *mut u64,
        end: *mut u64,
        enabled: *mut bool,
        previous: *mut u16,
        next: *mut u16,
        list_prev: *mut u16,
        list_next: *mut u16,
        kind: u64,
        x: u64,
        y: u64,
        z: u64,
    ) -> i64;
    fn cinghjalofa_fields_batch(
        lowest: *mut u64,
        total: *mut u64,
        first: *mut u16,
        heads: *mut u16,
        start: *mut u64,
        end: *mut u64,
        enabled: *mut bool,
        previous: *mut u16,
        next: *mut u16,
        list_prev: *mut u16,
        list_next: *mut u16,
        calls: *const u64,
        words: usize,
        answers: *mut i64,
        places: usize,
    ) -> i64;
    fn cinghjalofa_fields_import(
        lowest: *mut u64,
        total: *mut u64,
        first: *mut u16,
        heads: *mut u16,
        start: *mut u64,
        end: *mut u64,
        enabled: *mut bool,
        previous: *mut u16,
        next: *mut u16,
        list_prev: *mut u16,
        list_next: *mut u16,
        image: *const u8,
        len: usize,
    ) -> i64;
    fn cinghjalofa_fields_export(
        lowest: u64,
        total: u64,
        first: u16,
        heads: *const u16,
        start: *const u64,
        end: *const u64,
        enabled: *const bool,
        previous: *const u16,
        next: *const u16,
        list_prev: *const u16,
        list_next: *const u16,
        image: *mut u8,
        len: usize,
    ) -> i64;
    fn cinghjalofa_fields_total(
        lowest: u64,
        total: u64,
        first: u16,
        heads: *const u16,
        start: *const u64,
        end: *const u64,
        enabled: *const bool,
        previous: *const u16,
        next: *const u16,
        list_prev: *const u16,
        list_next: *const u16,
        figure: *mut u64,
    ) -> i64;
    fn cinghjalofa_fields_lowest(
        lowest: u64,
        total: u64,
        first: u16,
        heads: *const u16,
        start: *const u64,
        end: *const u64,
        enabled: *const bool,
        previous: *const u16,
        next: *const u16,
        list_prev: *const u16,
        list_next: *const u16,
        figure: *mut u64,
    ) -> i64;
    fn cinghjalofa_fields_listing(
        lowest: u64,
        total: u64,
        first: u16,
        heads: *const u16,
        start: *const u64,
        end: *const u64,
        enabled: *const bool,
        previous: *const u16,
        next: *const u16,
        list_prev: *const u16,
        list_next: *const u16,
        starts: *mut u64,
        starts_len: usize,
        lasts: *mut u64,
        lasts_len: usize,
    ) -> i64;
}

/// Writes the image of the empty allocator over whatever is there, and answers 0.
/// - -2: the slice is not `IMAGE_BYTES` long
pub fn new(image: &mut [u8]) -> i64 {
    // Safety: pointer and length are those of a slice that is borrowed for the whole call; so in each function below.
    unsafe { cinghjalofa_new(image.as_mut_ptr(), image.len()) }
}

/// Writes the current image of the state whose image `old` is, of any version: the same free ranges in the same records and the
/// same orders, the other records unused. An older image has no lowest figure: it becomes the total. An image of the current version comes
/// out as it went in. Answers 0.
/// - -2: `image` is not `IMAGE_BYTES` long, or `old` is no image of a sound allocator, of 64 records in 1370 bytes (version 1),
///   of 256 in 6439 (version 2), or of now
pub fn upgrade(old: &[u8], image: &mut [u8]) -> i64 {
    unsafe { cinghjalofa_upgrade(old.as_ptr(), old.len(), image.as_mut_ptr(), image.len()) }
}

/// Takes `size` free bytes and answers the address of the first, a multiple of 2^order. They come from the first free
/// range that fits once its start is rounded up; smaller ranges are tried first, and the newest first among equals. A range
/// that would fall into two pieces is passed over where all records are used.
/// - -2: the slice is not `IMAGE_BYTES` long, or the image is not sound
/// - -4: `size` is 0, or `order` is above 63
/// - -3: `size` is above the total, or no range fits
/// - -1: all records are used, and each range that fits would fall into two pieces
pub fn allocate(image: &mut [u8], size: u64, order: u64) -> i64 {
    unsafe { cinghjalofa_allocate(image.as_mut_ptr(), image.len(), size, order) }
}

/// Takes the bytes from `start` to `start + size - 1`, widened first: the start is rounded down, the end up, to multiples
/// of 2^order. Answers 0.
/// - -2: the slice is not `IMAGE_BYTES` long, or the image is not sound
/// - -4: `size` is 0, or `order` is above 63
/// - -3: `size` is above the total
/// - -4: `start + size` is above 2^63
/// - -3: the widened size is above the total
/// - -4: the widened range does not lie inside one free range
/// - -1: the free range would fall into two pieces and all records are used
pub fn reserve_memory(image: &mut [u8], start: u64, size: u64, order: u64) -> i64 {
    unsafe { cinghjalofa_reserve_memory(image.as_mut_ptr(), image.len(), start, size, order) }
}

/// Makes the bytes from `start` to `start + size - 1` free and joins them with the free ranges they touch. Answers 0.
/// - -2: the slice is not `IMAGE_BYTES` long, or the image is not sound
/// - -4: `size` is 0, `start + size` is above 2^63, or one of the bytes is free already
/// - -1: the bytes touch no free range and all records are used
pub fn free(image: &mut [u8], start: u64, size: u64) -> i64 {
    unsafe { cinghjalofa_free(image.as_mut_ptr(), image.len(), start, size) }
}

/// Takes `count` pages and answers the address of the first, a multiple of 4096 and of 2^order. Orders below 12 are taken
/// as 12.
/// - -2: the slice is not `IMAGE_BYTES` long, or the image is not sound
/// - -4: `count` is 0 or above 2^51, or `order` is above 63
/// - -3, -1: as `allocate` answers to 4096 * `count` bytes
pub fn allocate_pages(image: &mut [u8], count: u64, order: u64) -> i64 {
    unsafe { cinghjalofa_allocate_pages(image.as_mut_ptr(), image.len(), count, order) }
}

/// Makes `count` pages from `address` free and joins them with the free ranges they touch. Answers 0.
/// - -2: the slice is not `IMAGE_BYTES` long, or the image is not sound
/// - -4: `address` is no multiple of 4096, `count` is 0 or above 2^51, the pages pass 2^63, or one of their bytes is free
///   already
/// - -1: they touch no free range and all records are used
pub fn free_pages(image: &mut [u8], address: u64, count: u64) -> i64 {
    unsafe { cinghjalofa_free_pages(image.as_mut_ptr(), image.len(), address, count) }
}

/// Maps `map_size` bytes of stage 2 inputs from `intermediate_physical_address` on to the outputs from `physical_address` on, in
/// the tables that VTTBR_EL2 and VTCR_EL2 name: mapped addresses translate as asked, all others as before. The arena is the memory
/// in which all tables and all free bytes of the allocator lie; its first byte has the address `base`. The caller flushes
/// the TLB after 0. Answers 0.
/// - -2: the slice is not `IMAGE_BYTES` long
/// - -4: the registers, a size or an address that request T-09 refuses, or a sum past 2^48 or past 2^(64-T0SZ)
/// - -2: the image is not sound, a table or a free byte is outside the arena, or a table is reached twice or is on free bytes
/// - -4: a block stands where a table is wanted
/// - -3, -1: a page for a table is not to be had, as `allocate_pages` answers
#[allow(clippy::too_many_arguments)]
pub fn map_address_stage2(
    image: &mut [u8],
    arena: &mut [u64],
    base: u64,
    vttbr_el2: u64,
    vtcr_el2: u64,
    physical_address: u64,
    intermediate_physical_address: u64,
    map_size: u64,
    is_readable: bool,
    is_writable: bool,
) -> i64 {
    unsafe {
        cinghjalofa_map_address_stage2(
            image.as_mut_ptr(),
            image.len(),
            arena.as_mut_ptr(),
            arena.len(),
            base,
            vttbr_el2,
            vtcr_el2,
            physical_address,
            intermediate_physical_address,
            map_size,
            is_readable,
            is_writable,
        )
    }
}

/// Serves the `calls.len() / 4` calls of a list in order, and writes the answer of each, as the call made singly would answer
/// it, to its place in `answers`. The image is read, checked and written once, whatever the length of the list. Answers 0,
/// however many of the calls were refused.
/// - -2: the slice is not `IMAGE_BYTES` long, or the image is not sound
/// - -4: the words are no multiple of 4, or there are fewer places than calls
///
/// A refusal of the list changes no byte of image or answers. A call of unknown kind is answered -4 in its place, and those
/// behind it are served. Places past the list keep their contents. A list may be cut between any two calls: the parts, one
/// after the other, give the same answers and the same image.
pub fn batch(image: &mut [u8], calls: &[u64], answers: &mut [i64]) -> i64 {
    let (len, words, places) = (image.len(), calls.len(), answers.len());
    unsafe { cinghjalofa_batch(image.as_mut_ptr(), len, calls.as_ptr(), words, answers.as_mut_ptr(), places) }
}

/// Writes the number of free bytes to `figure`, and answers 0. (It may be 2^63, which no answer is.)
/// - -2: the slice is not `IMAGE_BYTES` long, or the image is not sound; the figure stays as it was
pub fn total(image: &[u8], figure: &mut u64) -> i64 {
    unsafe { cinghjalofa_total(image.as_ptr(), image.len(), figure) }
}

/// Writes the lowest figure to `figure`, and answers 0: the least number of free bytes after any accepted call since the first
/// accepted free, of a list after each of its calls; `NEVER` before it. Nothing raises it.
/// - -2: the slice is not `IMAGE_BYTES` long, or the image is not sound; the figure stays as it was
pub fn lowest(image: &[u8], figure: &mut u64) -> i64 {
    unsafe { cinghjalofa_lowest(image.as_ptr(), image.len(), figure) }
}

/// Writes the first byte of each free range to `starts` and the last one to `lasts`, by address, and answers the number of
/// ranges. Places past them keep their contents; `RECORDS` places are always enough.
/// - -2: the slice is not `IMAGE_BYTES` long, or the image is not sound
/// - -4: one of the slices has fewer places than there are ranges; nothing is written
pub fn listing(image: &[u8], starts: &mut [u64], lasts: &mut [u64]) -> i64 {
    let (len, places, last_places) = (image.len(), starts.len(), lasts.len());
    unsafe { cinghjalofa_listing(image.as_ptr(), len, starts.as_mut_ptr(), places, lasts.as_mut_ptr(), last_places) }
}

/// Writes the image of the empty allocator with an empty register over whatever is there, and answers 0.
/// - -2: the slice is not `HOLDERS_IMAGE_BYTES` long; so in each of the four below, or the image is not sound
pub fn holders_new(image: &mut [u8]) -> i64 {
    unsafe { cinghjalofa_holders_new(image.as_mut_ptr(), image.len()) }
}

/// The board offers bytes: they become free. Answers 0.
/// - -4: `size` is 0, `start + size` is above 2^63, or one of the bytes is free already
/// - -5: one of the bytes is held
/// - -1: the bytes touch no free range and all records are used
pub fn holders_offer(image: &mut [u8], start: u64, size: u64) -> i64 {
    unsafe { cinghjalofa_holders_offer(image.as_mut_ptr(), image.len(), start, size) }
}

/// Takes bytes for `holder`, as `allocate` does, and enters them. Answers the address.
/// - -4: `holder` is not 1 to 16
/// - -4, -3, -1: what `allocate` refuses
/// - -6: all entries are used
pub fn holders_allocate(image: &mut [u8], holder: u64, size: u64, order: u64) -> i64 {
    unsafe { cinghjalofa_holders_allocate(image.as_mut_ptr(), image.len(), holder, size, order) }
}

/// Takes these bytes, widened, for `holder`, as `reserve_memory` does, and enters the widened range. Answers 0.
/// - -4: `holder` is not 1 to 16
/// - -4, -3, -1: what `reserve_memory` refuses
/// - -6: all entries are used
pub fn holders_reserve_memory(image: &mut [u8], holder: u64, start: u64, size: u64, order: u64) -> i64 {
    unsafe { cinghjalofa_holders_reserve_memory(image.as_mut_ptr(), image.len(), holder, start, size, order) }
}

/// `holder` hands back a range exactly as it was handed out: the address and size of an allocation, the widened range of a
/// reserve. Answers 0.
/// - -4: `holder` is not 1 to 16, `size` is 0, `start + size` is above 2^63, or one of the bytes is free already
/// - -5: it is not exactly a range handed to this holder
/// - -1: the bytes touch no free range and all records are used: the range stays held
pub fn holders_free(image: &mut [u8], holder: u64, start: u64, size: u64) -> i64 {
    unsafe { cinghjalofa_holders_free(image.as_mut_ptr(), image.len(), holder, start, size) }
}

/// Writes the version byte of a journal. Answers 1, the place of the first block.
/// - -4: the slice is empty
pub fn journal_begin(journal: &mut [u8]) -> i64 {
    unsafe { cinghjalofa_journal_begin(journal.as_mut_ptr(), journal.len()) }
}

/// Writes the block of one call, in words, and its answer, from the place `at` on, and answers the place after it. The third
/// number is not looked at where the call has two.
/// - -4: the kind is not 1, 2 or 3, or the block does not fit
pub fn journal_write(journal: &mut [u8], at: u64, call: &[u64; CALL_WORDS], answer: i64) -> i64 {
    let [kind, x, y, z] = *call;
    unsafe { cinghjalofa_journal_write(journal.as_mut_ptr(), journal.len(), at, kind, x, y, z, answer) }
}

/// Reads the block at the place `at` into five words, and answers the place after it; 0 where `at` is the journal's length.
/// - -4: `at` is above the journal's length
/// - -2: no whole good block stands there
/// - -4: `entry` has fewer than five words
pub fn journal_read(journal: &[u8], at: u64, entry: &mut [u64]) -> i64 {
    unsafe { cinghjalofa_journal_read(journal.as_ptr(), journal.len(), at, entry.as_mut_ptr(), entry.len()) }
}

/// Replays the journal from empty, with the rules of this build, and compares each answer whole. Answers one of the five
/// reports and writes its figure.
/// - -2: there is no version byte, or another; the figure stays as it was
pub fn audit(journal: &[u8], figure: &mut u64) -> i64 {
    unsafe { cinghjalofa_audit(journal.as_ptr(), journal.len(), figure) }
}

macro_rules! fields_mut {
    ($call:ident($own:ident $(, $more:expr)*)) => {
        $call(
            &mut $own.lowest,
            &mut $own.total,
            &mut $own.first,
            $own.heads.as_mut_ptr(),
            $own.start.as_mut_ptr(),
            $own.end.as_mut_ptr(),
            $own.enabled.as_mut_ptr().cast::<bool>(),
            $own.previous.as_mut_ptr(),
            $own.next.as_mut_ptr(),
            $own.list_prev.as_mut_ptr(),
            $own.list_next.as_mut_ptr(),
            $($more),*
        )
    };
}

macro_rules! fields {
    ($call:ident($own:ident $(, $more:expr)*)) => {
        $call(
            $own.lowest,
            $own.total,
            $own.first,
            $own.heads.as_ptr(),
            $own.start.as_ptr(),
            $own.end.as_ptr(),
            $own.enabled.as_ptr().cast::<bool>(),
            $own.previous.as_ptr(),
            $own.next.as_ptr(),
            $own.list_prev.as_ptr(),
            $own.list_next.as_ptr(),
            $($more),*
        )
    };
}

/// A state of one's own: no bytes to read or write at a call. A call is its kind and three numbers, as in a list; those that
/// it has not are not looked at. Nobody but the calls below writes the fields.
#[repr(C)]
pub struct Own {
    lowest: u64,
    total: u64,
    start: [u64; RECORDS],
    end: [u64; RECORDS],
    /// A byte for each record.
    enabled: [u64; RECORDS / 8],
    heads: [u16; LISTS],
    previous: [u16; RECORDS],
    next: [u16; RECORDS],
    list_prev: [u16; RECORDS],
    list_next: [u16; RECORDS],
    first: u16,
}

impl Own {
    /// The empty allocator.
    pub const fn new() -> Self {
        Self {
            lowest: NEVER,
            total: 0,
            start: [0; RECORDS],
            end: [0; RECORDS],
            enabled: [0; RECORDS / 8],
            heads: [NO_RECORD; LISTS],
            previous: [NO_RECORD; RECORDS],
            next: [NO_RECORD; RECORDS],
            list_prev: [NO_RECORD; RECORDS],
            list_next: [NO_RECORD; RECORDS],
            first: NO_RECORD,
        }
    }

    /// A call, checked: -2, and nothing changed, where the fields are no sound state.
    #[inline]
    pub fn call(&mut self, kind: u64, x: u64, y: u64, z: u64) -> i64 {
        if !self.has_bits() {
            return INVALID_ENTRY;
        }
        // Safety: the fields are borrowed for the whole call, and the bytes of `enabled` are 0 or 1; so in each function below.
        unsafe { fields_mut!(cinghjalofa_fields_call(self, kind, x, y, z)) }
    }

    /// A call, not checked: the answer, and the fields, are those of `call` where the fields are a sound state, and nothing is
    /// promised where they are not. They are one as long as nothing but these functions has written them.
    #[inline]
    pub fn call_unchecked(&mut self, kind: u64, x: u64, y: u64, z: u64) -> i64 {
        // Safety: no other code can write the fields, so that the bytes of `enabled` are 0 or 1, and the state is sound.
        unsafe { fields_mut!(cinghjalofa_fields_call_unchecked(self, kind, x, y, z)) }
    }

    /// A list of calls, as `batch` serves it; the state is checked once.
    pub fn batch(&mut self, calls: &[u64], answers: &mut [i64]) -> i64 {
        if !self.has_bits() {
            return INVALID_ENTRY;
        }
        let (words, places) = (calls.len(), answers.len());
        unsafe { fields_mut!(cinghjalofa_fields_batch(self, calls.as_ptr(), words, answers.as_mut_ptr(), places)) }
    }

    /// Whether the fields are a sound state.
    pub fn is_sound(&self) -> bool {
        self.has_bits() && unsafe { fields!(cinghjalofa_fields_are_sound(self)) }
    }

    /// The state of an image; -2, and nothing changed, where the bytes are no image of a sound allocator.
    pub fn import(&mut self, image: &[u8]) -> i64 {
        let mut read = Self::new();
        let answer = unsafe { fields_mut!(cinghjalofa_fields_import(read, image.as_ptr(), image.len())) };
        if answer >= 0 {
            *self = read;
        }
        answer
    }

    /// The image of the state; -2, and no byte changed, where it is not sound, or the slice is not `IMAGE_BYTES` long.
    pub fn export(&self, image: &mut [u8]) -> i64 {
        if !self.has_bits() {
            return INVALID_ENTRY;
        }
        unsafe { fields!(cinghjalofa_fields_export(self, image.as_mut_ptr(), image.len())) }
    }

    /// Writes the number of free bytes, and answers 0; -2, and the figure as it was, where the fields are no sound state.
    pub fn total(&self, figure: &mut u64) -> i64 {
        if !self.has_bits() {
            return INVALID_ENTRY;
        }
        unsafe { fields!(cinghjalofa_fields_total(self, figure)) }
    }

    /// The stored total, which is the number of free bytes where the fields are a sound state. Nothing is checked.
    #[inline]
    pub fn total_unchecked(&self) -> u64 {
        self.total
    }

    /// Writes the lowest figure, as `lowest` does, and answers 0; -2, and the figure as it was, where the fields are no sound state.
    pub fn lowest(&self, figure: &mut u64) -> i64 {
        if !self.has_bits() {
            return INVALID_ENTRY;
        }
        unsafe { fields!(cinghjalofa_fields_lowest(self, figure)) }
    }

    /// The free ranges by address, as `listing` writes them; -2, and nothing written, where the fields are no sound state.
    pub fn listing(&self, starts: &mut [u64], lasts: &mut [u64]) -> i64 {
        if !self.has_bits() {
            return INVALID_ENTRY;
        }
        let (places, last_places) = (starts.len(), lasts.len());
        unsafe {
            fields!(cinghjalofa_fields_listing(self, starts.as_mut_ptr(), places, lasts.as_mut_ptr(), last_places))
        }
    }

    /// Each byte of `enabled` is 0 or 1, as the library takes it for granted.
    fn has_bits(&self) -> bool {
        self.enabled.iter().fold(0, |all, bytes| all | bytes) & !0x0101_0101_0101_0101 == 0
    }
}

impl Default for Own {
    fn default() -> Self {
        Self::new()
    }
}
