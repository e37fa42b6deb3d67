/*
 * The memory-range allocator for C (C89 to C23) and C++ (C++98 on), on 64-bit machines: the calls over a byte image that the caller lends, and, at the end, the same
 * calls on a state of the caller's own, `struct cinghjalofa_own`, which take a fraction of the time.
 *
 * The image
 *   The whole state lies in CINGHJALOFA_IMAGE_BYTES bytes of the caller's memory. The library keeps nothing between
 *   calls, allocates nothing, reads no memory but what it is lent, and calls nothing but memcpy, memmove, memset and memcmp. An image
 *   may be copied, stored and lent again at another address; the address may have any alignment. cinghjalofa_new makes
 *   the first image.
 *
 * What the caller owes
 *   `image` points to `len` bytes that may be read and written. With `len` 0 it is not followed and may be NULL.
 *   So of the two slices of cinghjalofa_batch: `calls` points to `words` numbers that may be read, `answers` to `places`
 *   numbers that may be read and written, each aligned as its numbers are. The three slices do not overlap.
 *   No two calls over the same image run at the same time: the library takes no lock. Calls over different images
 *   may run side by side.
 *   Nothing is owed about the contents or about the numbers: every call ends with one of the answers below.
 *   A call takes less than 8192 bytes of stack, most of it for the fields of the state while it is served; tests/guide measures it. A map takes less than 24576:
 *   besides the fields it has the free ranges and marks of pages, and a copy of the image on which it tries its pages. cinghjalofa_own_import takes less than 16384.
 *
 * The answer
 *   0 or more: accepted. It is the address for the calls that allocate, bytes or pages, with a holder or without; the number of
 *   ranges for a listing; a place in the journal for the calls that write or read one; a report for cinghjalofa_audit; and 0 for
 *   the others. A list of calls has an answer of its own, and one for each of its calls.
 *   Below 0: refused, for the first reason that applies in the order in which each function lists them. A refusal
 *   changes no byte of what is lent. An accepted call writes what it is lent to be written and nothing else: the image or the state,
 *   of a list the places of its calls, of a map the arena too, of a listing its two slices, of a total or a lowest figure that number,
 *   of a journal its bytes, its entry or its figure.
 *   A slice of another length is refused with -2 before anything else, and before a byte of it is read. An image that
 *   no sound allocator writes (damaged, or of another version, an older one too) is refused with -2 before a bad request is with -4;
 *   only a map looks at its numbers first.
 *
 * Addresses run from 0 to 2^63-1 and sizes count bytes. An alignment order n, 0 to 63, means a multiple of 2^n. There
 * are 256 records, one for each free range. The total is the number of free bytes, and the lowest figure the least total after any accepted call
 * since the first accepted free. Sums are mathematical, never wrapped.
 */
#ifndef CINGHJALOFA_H
#define CINGHJALOFA_H

#include <stddef.h>
#include <stdint.h>

/* What C89 has not: the functions of this header are inline where the compiler can have them so, and the type of a truth is the
 * one that the library has, whatever the language calls it. */
#if defined(__cplusplus)
#define CINGHJALOFA_INLINE static inline
typedef bool cinghjalofa_bool;
#elif defined(__STDC_VERSION__) && __STDC_VERSION__ >= 199901L
#define CINGHJALOFA_INLINE static inline
typedef _Bool cinghjalofa_bool;
#elif defined(__GNUC__)
#define CINGHJALOFA_INLINE static __inline__
__extension__ typedef _Bool cinghjalofa_bool;
#else
#define CINGHJALOFA_INLINE static
typedef unsigned char cinghjalofa_bool;
#endif

/* The length of an image, version 3 of its layout; any other `len` is refused. Version 1 had 1370 bytes and version 2 had 6439: cinghjalofa_upgrade reads
 * them. */
#define CINGHJALOFA_IMAGE_BYTES 6447

/* The lowest figure before the first accepted free. */
#define CINGHJALOFA_NEVER (~(uint64_t)0)

/* The bytes of a page, and how many pages the addresses have. */
#define CINGHJALOFA_PAGE_BYTES 4096
#define CINGHJALOFA_MOST_PAGES ((uint64_t)1 << 51)

/* The refusals. */
#define CINGHJALOFA_NO_ENTRY (-1)        /* a record is needed and none is unused */
#define CINGHJALOFA_INVALID_ENTRY (-2)   /* the state, or the image, is not that of a sound allocator */
#define CINGHJALOFA_NO_MEMORY (-3)       /* too few free bytes, or no free range fits */
#define CINGHJALOFA_INVALID_REQUEST (-4) /* size or count 0, order above 63, or a bad or overlapping range */

/* The kinds of call in a list. */
#define CINGHJALOFA_FREE 1     /* start, size */
#define CINGHJALOFA_ALLOCATE 2 /* size, order */
#define CINGHJALOFA_RESERVE 3  /* start, size, order */

/* The words of a call in a list: its kind, then its numbers as typed. A word that a call does not use is not looked at. */
#define CINGHJALOFA_CALL_WORDS 4

/* The first byte of a journal, and the words of a call with its answer: kind, three numbers (0 where the call has two), the
 * answer's 64 bits. */
#define CINGHJALOFA_JOURNAL_VERSION 1
#define CINGHJALOFA_ENTRY_WORDS 5

/* The bytes of the longest block of a journal. */
#define CINGHJALOFA_LONGEST_BLOCK 35

/* What an audit reports. */
#define CINGHJALOFA_AGREES 0       /* every answer is the one of the replay; the figure is the final total */
#define CINGHJALOFA_DIFFERS 1      /* the figure is the index, from 0, of the first call whose answer differs, */
#define CINGHJALOFA_TRUNCATED 2    /* of the block that the end of the journal cuts off, */
#define CINGHJALOFA_UNKNOWN_CALL 3 /* of a block with an unknown call byte, */
#define CINGHJALOFA_WRONG_LENGTH 4 /* or of one with a length that is not its call's */

#ifdef __cplusplus
extern "C" {
#endif

/*
 * Writes the image of the empty allocator over whatever is there, and answers 0.
 *   -2  len is not CINGHJALOFA_IMAGE_BYTES
 */
int64_t cinghjalofa_new(uint8_t *image, size_t len);

/*
 * Writes the current image of the state whose image `old` is, of any version: the same free ranges in the same records and the
 * same orders, the other records unused. An older image has no lowest figure: it becomes the total. An image of the current version comes out as it went in. Answers 0. `old` points to
 * `old_len` bytes that may be read, and the two slices do not overlap.
 *   -2  len is not CINGHJALOFA_IMAGE_BYTES, or old is no image of a sound allocator, of 64 records in 1370 bytes (version 1), of 256
 *       in 6439 (version 2), or of now
 */
int64_t cinghjalofa_upgrade(const uint8_t *old, size_t old_len, uint8_t *image, size_t len);

/*
 * Takes `size` free bytes and answers the address of the first, a multiple of 2^order. They come from the first free
 * range that fits once its start is rounded up; smaller ranges are tried first, and the newest first among equals. A range
 * that would fall into two pieces is passed over where all records are used.
 *   -2  len is not CINGHJALOFA_IMAGE_BYTES, or the image is not sound
 *   -4  size is 0, or order is above 63
 *   -3  size is above the total, or no range fits
 *   -1  all records are used, and each range that fits would fall into two pieces
 */
int64_t cinghjalofa_allocate(uint8_t *image, size_t len, uint64_t size, uint64_t order);

/*
 * Takes the bytes from `start` to `start + size - 1`, widened first: the start is rounded down, the end up, to
 * multiples of 2^order. Answers 0.
 *   -2  len is not CINGHJALOFA_IMAGE_BYTES, or the image is not sound
 *   -4  size is 0, or order is above 63
 *   -3  size is above the total
 *   -4  start + size is above 2^63
 *   -3  the widened size is above the total
 *   -4  the widened range does not lie inside one free range
 *   -1  the free range would fall into two pieces and all records are used
 */
int64_t cinghjalofa_reserve_memory(uint8_t *image, size_t len, uint64_t start, uint64_t size, uint64_t order);

/*
 * Makes the bytes from `start` to `start + size - 1` free and joins them with the free ranges they touch. Answers 0.
 *   -2  len is not CINGHJALOFA_IMAGE_BYTES, or the image is not sound
 *   -4  size is 0, start + size is above 2^63, or one of the bytes is free already
 *   -1  the bytes touch no free range and all records are used
 */
int64_t cinghjalofa_free(uint8_t *image, size_t len, uint64_t start, uint64_t size);

/*
 * Takes `count` pages and answers the address of the first, a multiple of 4096 and of 2^order. Orders below 12 are
 * taken as 12.
 *   -2  len is not CINGHJALOFA_IMAGE_BYTES, or the image is not sound
 *   -4  count is 0 or above 2^51, or order is above 63
 *   -3, -1  as cinghjalofa_allocate answers to 4096 * count bytes
 */
int64_t cinghjalofa_allocate_pages(uint8_t *image, size_t len, uint64_t count, uint64_t order);

/*
 * Makes `count` pages from `address` free and joins them with the free ranges they touch. Answers 0.
 *   -2  len is not CINGHJALOFA_IMAGE_BYTES, or the image is not sound
 *   -4  address is no multiple of 4096, count is 0 or above 2^51, the pages pass 2^63, or one of their bytes is free
 *       already
 *   -1  they touch no free range and all records are used
 */
int64_t cinghjalofa_free_pages(uint8_t *image, size_t len, uint64_t address, uint64_t count);

/*
 * Maps `map_size` bytes of stage 2 inputs from `intermediate_physical_address` on to the outputs from `physical_address`
 * on, in the tables that VTTBR_EL2 and VTCR_EL2 name: mapped addresses translate as asked, all others as before. Fresh
 * tables are pages of the allocator, as cinghjalofa_allocate_pages hands them out. Answers 0.
 *   `arena` points to `arena_words` words that may be read and written, aligned to 8: the memory in which all tables and all
 *   free bytes of the allocator lie. Its first byte has the address `arena_base`. It does not overlap the image.
 *   The TLB is the caller's: after 0 it flushes the stage 2 entries (dsb ishst; tlbi alle1is; dsb ish; isb).
 *   -2  len is not CINGHJALOFA_IMAGE_BYTES
 *   -4  T0SZ outside 16 to 24 at level 0, 21 to 33 at level 1, 30 to 39 at level 2, or level 3; a top table that is not aligned
 *       to its whole size; arena_base, map_size or an address no multiple of 4096; map_size 0; an output past 2^48; an input
 *       past 2^(64-T0SZ)
 *   -2  the image is not sound; a table or a free byte outside the arena, or from 2^48 on; a table that is reached twice, or on
 *       free bytes
 *   -4  a block stands where a table is wanted
 *   -3, -1  a page for a table is not to be had, as cinghjalofa_allocate_pages answers
 * A refusal changes no byte of the image and no word of the arena.
 */
int64_t cinghjalofa_map_address_stage2(uint8_t *image, size_t len, uint64_t *arena, size_t arena_words, uint64_t arena_base,
                                       uint64_t vttbr_el2, uint64_t vtcr_el2, uint64_t physical_address,
                                       uint64_t intermediate_physical_address, uint64_t map_size, cinghjalofa_bool is_readable,
                                       cinghjalofa_bool is_writable);

/*
 * Serves the `words / 4` calls of a list in order, and writes the answer of each, as the call made singly would answer it,
 * to its place in `answers`. The image is read, checked and written once, whatever the length of the list. Answers 0,
 * however many of the calls were refused.
 *   -2  len is not CINGHJALOFA_IMAGE_BYTES, or the image is not sound
 *   -4  words is no multiple of 4, or there are fewer places than calls
 * A refusal of the list changes no byte of image or answers. A call of unknown kind is answered -4 in its place, and those
 * behind it are served. Places past the list keep their contents. A list may be cut between any two calls: the parts, one
 * after the other, give the same answers and the same image.
 */
int64_t cinghjalofa_batch(uint8_t *image, size_t len, const uint64_t *calls, size_t words, int64_t *answers, size_t places);

/*
 * Writes the number of free bytes to *total, and answers 0. (It may be 2^63, which no answer is.)
 *   -2  len is not CINGHJALOFA_IMAGE_BYTES, or the image is not sound; *total stays as it was
 */
int64_t cinghjalofa_total(const uint8_t *image, size_t len, uint64_t *total);

/*
 * Writes the lowest figure to *lowest, and answers 0: the least number of free bytes after any accepted call since the first accepted free, of a list
 * after each of its calls; CINGHJALOFA_NEVER before it. A refusal leaves it, and nothing raises it: handing back restores the ranges alone.
 *   -2  len is not CINGHJALOFA_IMAGE_BYTES, or the image is not sound; *lowest stays as it was
 */
int64_t cinghjalofa_lowest(const uint8_t *image, size_t len, uint64_t *lowest);

/*
 * Writes the first byte of each free range to `starts` and the last one to `lasts`, by address, from the first place on, and
 * answers the number of ranges. Places past them keep their contents; CINGHJALOFA_RECORDS places are always enough. What was
 * said above of `answers` holds of both slices.
 *   -2  len is not CINGHJALOFA_IMAGE_BYTES, or the image is not sound
 *   -4  one of the slices has fewer places than there are ranges; nothing is written
 */
int64_t cinghjalofa_listing(const uint8_t *image, size_t len, uint64_t *starts, size_t starts_len, uint64_t *lasts, size_t lasts_len);

/* The words of an answer: why a call was refused. For people to read; nothing else is to be told by them. */
CINGHJALOFA_INLINE const char *cinghjalofa_text(int64_t answer) {
    if (answer >= 0) return "accepted";
    if (answer == CINGHJALOFA_NO_ENTRY) return "a record is needed and none is unused";
    if (answer == CINGHJALOFA_INVALID_ENTRY) return "the state, or the image, is not that of a sound allocator";
    if (answer == CINGHJALOFA_NO_MEMORY) return "too few bytes are free, or no free range fits";
    if (answer == CINGHJALOFA_INVALID_REQUEST) return "the request cannot be right: its size, order, addresses or places";
    if (answer == -5) return "not exactly a range handed to this holder, or bytes that are held";
    if (answer == -6) return "all entries of the register are used";
    return "no answer of this library";
}

/*
 * The allocator with a register of who holds what: the same image inside, and 64 entries before it. The register's bytes: version 1;
 * the length of the rest in 4; from byte 5 on 17 for each entry: its holder, or 0 where it is not used, its first byte in 8 and its
 * last in 8, all 0 where it is not used; numbers have their high byte first. From byte CINGHJALOFA_HOLDERS_MEMORY on stands the
 * allocator's image. That part may be lent to cinghjalofa_total, cinghjalofa_lowest and cinghjalofa_listing; it must not be lent to
 * a call that changes it, which knows no register.
 *
 * Each call checks length, register and allocator before all else. It takes less than 12288 bytes of stack: besides the fields of the state
 * it has the register's numbers. Nothing is written before all is accepted, so that a refusal changes no byte.
 */
#define CINGHJALOFA_HOLDERS_MEMORY 1093
#define CINGHJALOFA_HOLDERS_IMAGE_BYTES (CINGHJALOFA_HOLDERS_MEMORY + CINGHJALOFA_IMAGE_BYTES)
#define CINGHJALOFA_HOLDERS 16         /* holders are 1 to 16 */
#define CINGHJALOFA_HELD_RANGES 64     /* of all holders together */
#define CINGHJALOFA_NOT_YOURS (-5)     /* not exactly a range handed to this holder; or an offer of held bytes */
#define CINGHJALOFA_REGISTER_FULL (-6) /* the allocator would accept, and all entries are used */

/*
 * Writes the image of the empty allocator with an empty register over whatever is there, and answers 0.
 *   -2  len is not CINGHJALOFA_HOLDERS_IMAGE_BYTES
 */
int64_t cinghjalofa_holders_new(uint8_t *image, size_t len);

/*
 * The board offers bytes: they become free. Answers 0.
 *   -2  len is not CINGHJALOFA_HOLDERS_IMAGE_BYTES, or the image is not sound
 *   -4  size is 0, start + size is above 2^63, or one of the bytes is free already
 *   -5  one of the bytes is held
 *   -1  the bytes touch no free range and all records are used
 */
int64_t cinghjalofa_holders_offer(uint8_t *image, size_t len, uint64_t start, uint64_t size);

/*
 * Takes bytes for `holder`, as cinghjalofa_allocate does, and enters them. Answers the address.
 *   -2  len is not CINGHJALOFA_HOLDERS_IMAGE_BYTES, or the image is not sound
 *   -4  holder is not 1 to 16
 *   then what cinghjalofa_allocate refuses: -4, -3, -1
 *   -6  all entries are used
 */
int64_t cinghjalofa_holders_allocate(uint8_t *image, size_t len, uint64_t holder, uint64_t size, uint64_t order);

/*
 * Takes these bytes, widened, for `holder`, as cinghjalofa_reserve_memory does, and enters the widened range. Answers 0.
 *   refusals as above, with those of cinghjalofa_reserve_memory in the middle
 */
int64_t cinghjalofa_holders_reserve_memory(uint8_t *image, size_t len, uint64_t holder, uint64_t start, uint64_t size, uint64_t order);

/*
 * `holder` hands back a range exactly as it was handed out: the address and size of an allocate, the widened range of a reserve. Answers 0.
 *   -2  len is not CINGHJALOFA_HOLDERS_IMAGE_BYTES, or the image is not sound
 *   -4  holder is not 1 to 16, size is 0, start + size is above 2^63, or one of the bytes is free already
 *   -5  it is not exactly a range handed to this holder
 *   -1  the bytes touch no free range and all records are used: the range stays held
 */
int64_t cinghjalofa_holders_free(uint8_t *image, size_t len, uint64_t holder, uint64_t start, uint64_t size);

/*
 * A journal: the version byte, then a block for each call with its answer. A block is the length of what follows in 2 bytes,
 * 25 or 33; the call byte, 1, 2 or 3 as the kinds above; the call's numbers as typed, 8 bytes each; and the call's answer in
 * 8. All numbers are big-endian, the answer in two's complement. The bytes are the caller's: a box that appends to a file
 * lends CINGHJALOFA_LONGEST_BLOCK bytes, writes each block at 0, and appends as many bytes as were answered.
 *
 * Of these four calls `journal` points to `len` bytes; what was said above of `image` holds of it, and of `entry` and `figure`,
 * which are aligned as their numbers are and do not overlap it. A refusal writes nothing.
 */

/*
 * Writes the version byte. Answers 1, the place of the first block.
 *   -4  len is 0
 */
int64_t cinghjalofa_journal_begin(uint8_t *journal, size_t len);

/*
 * Writes the block of one call from the place `at` on, and answers the place after it. z is not looked at where the call has
 * two numbers. A call of pages is written as the call in bytes that it is: 4096 times the count, the order at least 12.
 *   -4  kind is not 1, 2 or 3, or the block does not fit
 */
int64_t cinghjalofa_journal_write(uint8_t *journal, size_t len, uint64_t at, uint64_t kind, uint64_t x, uint64_t y, uint64_t z, int64_t answer);

/*
 * Reads the block at the place `at` into five words, and answers the place after it; 0 where `at` is len. Words behind the
 * fifth keep their contents.
 *   -4  at is above len
 *   -2  no whole good block stands there
 *   -4  words is below 5
 */
int64_t cinghjalofa_journal_read(const uint8_t *journal, size_t len, uint64_t at, uint64_t *entry, size_t words);

/*
 * Replays the journal from empty, with the rules of this build, and compares each answer whole. Answers one of the five
 * reports and writes its figure. It stops at the first trouble of any kind, and looks at nothing behind it.
 *   -2  there is no version byte, or another; *figure stays as it was
 */
int64_t cinghjalofa_audit(const uint8_t *journal, size_t len, uint64_t *figure);

/* ---- A state of one's own */

#define CINGHJALOFA_RECORDS 256
#define CINGHJALOFA_LISTS 12

/* Two kinds more, of single calls on a state of one's own. */
#define CINGHJALOFA_ALLOCATE_PAGES 4 /* count, order */
#define CINGHJALOFA_FREE_PAGES 5     /* address, count */

/*
 * The whole state, in the caller's memory. cinghjalofa_own_new or cinghjalofa_own_import makes the first one; after that the
 * calls below alone write it. It may be copied and moved. What is owed of an image is owed of it: room, and no two calls
 * over it at the same time.
 *
 * There are two sets of calls. The answers of both, and the state that they leave, are those of the calls over an image.
 *   cinghjalofa_own_CALL            asks first whether the state is sound, and answers -2 where it is not
 *   cinghjalofa_own_CALL_unchecked  does not ask. It is to be called of a sound state alone: one that nothing but these
 *                                   functions has written. Of another one nothing is promised, not even that the call ends.
 * So where something else may write over the allocator's memory, the checked calls notice; where nothing can, the unchecked
 * ones take a small part of the time (docs/BENCHMARK.md).
 */
struct cinghjalofa_own {
    uint64_t lowest;                            /* the lowest figure */
    uint64_t total;                             /* the number of free bytes */
    uint64_t start[CINGHJALOFA_RECORDS];        /* of each record: its first byte, */
    uint64_t end[CINGHJALOFA_RECORDS];          /* its last byte, */
    uint64_t enabled[CINGHJALOFA_RECORDS / 8];  /* a byte, 1 where it is in use, */
    uint16_t heads[CINGHJALOFA_LISTS];          /* (of each size list: its first record) */
    uint16_t previous[CINGHJALOFA_RECORDS];     /* and its neighbours by address */
    uint16_t next[CINGHJALOFA_RECORDS];
    uint16_t list_prev[CINGHJALOFA_RECORDS];    /* and on its size list; 65535 where there is none */
    uint16_t list_next[CINGHJALOFA_RECORDS];
    uint16_t first;                             /* the first record by address */
};

/* The library's functions take the eleven fields one by one; each byte of `enabled` is 0 or 1. A call is its kind and three
 * numbers, as in a list. */
#define CINGHJALOFA_FIELDS_WRITTEN \
    uint64_t *lowest, uint64_t *total, uint16_t *first, uint16_t *heads, uint64_t *start, uint64_t *end, cinghjalofa_bool *enabled, \
    uint16_t *previous, uint16_t *next, uint16_t *list_prev, uint16_t *list_next
#define CINGHJALOFA_FIELDS_READ \
    uint64_t lowest, uint64_t total, uint16_t first, const uint16_t *heads, const uint64_t *start, const uint64_t *end, \
    const cinghjalofa_bool *enabled, const uint16_t *previous, const uint16_t *next, const uint16_t *list_prev, const uint16_t *list_next

void cinghjalofa_fields_new(CINGHJALOFA_FIELDS_WRITTEN);
cinghjalofa_bool cinghjalofa_fields_are_sound(CINGHJALOFA_FIELDS_READ);
int64_t cinghjalofa_fields_call(CINGHJALOFA_FIELDS_WRITTEN, uint64_t kind, uint64_t x, uint64_t y, uint64_t z);
int64_t cinghjalofa_fields_call_unchecked(CINGHJALOFA_FIELDS_WRITTEN, uint64_t kind, uint64_t x, uint64_t y, uint64_t z);
int64_t cinghjalofa_fields_batch(CINGHJALOFA_FIELDS_WRITTEN, const uint64_t *calls, size_t words, int64_t *answers, size_t places);
int64_t cinghjalofa_fields_import(CINGHJALOFA_FIELDS_WRITTEN, const uint8_t *image, size_t len);
int64_t cinghjalofa_fields_export(CINGHJALOFA_FIELDS_READ, uint8_t *image, size_t len);
int64_t cinghjalofa_fields_total(CINGHJALOFA_FIELDS_READ, uint64_t *figure);
int64_t cinghjalofa_fields_lowest(CINGHJALOFA_FIELDS_READ, uint64_t *figure);
int64_t cinghjalofa_fields_listing(CINGHJALOFA_FIELDS_READ, uint64_t *starts, size_t starts_len, uint64_t *lasts, size_t lasts_len);

#define CINGHJALOFA_LENT(own) \
    &(own)->lowest, &(own)->total, &(own)->first, (own)->heads, (own)->start, (own)->end, (cinghjalofa_bool *)(void *)(own)->enabled, (own)->previous, \
    (own)->next, (own)->list_prev, (own)->list_next
#define CINGHJALOFA_SHOWN(own) \
    (own)->lowest, (own)->total, (own)->first, (own)->heads, (own)->start, (own)->end, (const cinghjalofa_bool *)(const void *)(own)->enabled, \
    (own)->previous, (own)->next, (own)->list_prev, (own)->list_next

/* Each byte of `enabled` is 0 or 1, as the library takes it for granted. */
CINGHJALOFA_INLINE cinghjalofa_bool cinghjalofa_own_has_bits(const struct cinghjalofa_own *own) {
    const uint64_t ones = ~(uint64_t)0 / 255; /* 1 in each byte */
    uint64_t all = 0;
    int i;
    for (i = 0; i < CINGHJALOFA_RECORDS / 8; i++) all |= own->enabled[i];
    return (all & ~ones) == 0;
}

CINGHJALOFA_INLINE int64_t cinghjalofa_own_call(struct cinghjalofa_own *own, uint64_t kind, uint64_t x, uint64_t y, uint64_t z) {
    if (!cinghjalofa_own_has_bits(own)) return CINGHJALOFA_INVALID_ENTRY;
    return cinghjalofa_fields_call(CINGHJALOFA_LENT(own), kind, x, y, z);
}

CINGHJALOFA_INLINE int64_t cinghjalofa_own_call_unchecked(struct cinghjalofa_own *own, uint64_t kind, uint64_t x, uint64_t y, uint64_t z) {
    return cinghjalofa_fields_call_unchecked(CINGHJALOFA_LENT(own), kind, x, y, z);
}

/* The empty allocator, over whatever is there. */
CINGHJALOFA_INLINE void cinghjalofa_own_new(struct cinghjalofa_own *own) {
    int i;
    for (i = 0; i < CINGHJALOFA_RECORDS / 8; i++) own->enabled[i] = 0;
    cinghjalofa_fields_new(CINGHJALOFA_LENT(own));
}

/* Whether the state is sound. */
CINGHJALOFA_INLINE cinghjalofa_bool cinghjalofa_own_is_sound(const struct cinghjalofa_own *own) {
    return cinghjalofa_own_has_bits(own) && cinghjalofa_fields_are_sound(CINGHJALOFA_SHOWN(own));
}

/* The five calls, with the refusals that stand above; -2 is the answer to a state that is not sound. */
CINGHJALOFA_INLINE int64_t cinghjalofa_own_allocate(struct cinghjalofa_own *own, uint64_t size, uint64_t order) {
    return cinghjalofa_own_call(own, CINGHJALOFA_ALLOCATE, size, order, 0);
}

CINGHJALOFA_INLINE int64_t cinghjalofa_own_reserve_memory(struct cinghjalofa_own *own, uint64_t start, uint64_t size, uint64_t order) {
    return cinghjalofa_own_call(own, CINGHJALOFA_RESERVE, start, size, order);
}

CINGHJALOFA_INLINE int64_t cinghjalofa_own_free(struct cinghjalofa_own *own, uint64_t start, uint64_t size) {
    return cinghjalofa_own_call(own, CINGHJALOFA_FREE, start, size, 0);
}

CINGHJALOFA_INLINE int64_t cinghjalofa_own_allocate_pages(struct cinghjalofa_own *own, uint64_t count, uint64_t order) {
    return cinghjalofa_own_call(own, CINGHJALOFA_ALLOCATE_PAGES, count, order, 0);
}

CINGHJALOFA_INLINE int64_t cinghjalofa_own_free_pages(struct cinghjalofa_own *own, uint64_t address, uint64_t count) {
    return cinghjalofa_own_call(own, CINGHJALOFA_FREE_PAGES, address, count, 0);
}

/* The same, of a sound state alone. */
CINGHJALOFA_INLINE int64_t cinghjalofa_own_allocate_unchecked(struct cinghjalofa_own *own, uint64_t size, uint64_t order) {
    return cinghjalofa_own_call_unchecked(own, CINGHJALOFA_ALLOCATE, size, order, 0);
}

CINGHJALOFA_INLINE int64_t cinghjalofa_own_reserve_memory_unchecked(struct cinghjalofa_own *own, uint64_t start, uint64_t size, uint64_t order) {
    return cinghjalofa_own_call_unchecked(own, CINGHJALOFA_RESERVE, start, size, order);
}

CINGHJALOFA_INLINE int64_t cinghjalofa_own_free_unchecked(struct cinghjalofa_own *own, uint64_t start, uint64_t size) {
    return cinghjalofa_own_call_unchecked(own, CINGHJALOFA_FREE, start, size, 0);
}

CINGHJALOFA_INLINE int64_t cinghjalofa_own_allocate_pages_unchecked(struct cinghjalofa_own *own, uint64_t count, uint64_t order) {
    return cinghjalofa_own_call_unchecked(own, CINGHJALOFA_ALLOCATE_PAGES, count, order, 0);
}

CINGHJALOFA_INLINE int64_t cinghjalofa_own_free_pages_unchecked(struct cinghjalofa_own *own, uint64_t address, uint64_t count) {
    return cinghjalofa_own_call_unchecked(own, CINGHJALOFA_FREE_PAGES, address, count, 0);
}

/* A list of calls, as cinghjalofa_batch serves it; the state is checked once. */
CINGHJALOFA_INLINE int64_t cinghjalofa_own_batch(struct cinghjalofa_own *own, const uint64_t *calls, size_t words, int64_t *answers, size_t places) {
    if (!cinghjalofa_own_has_bits(own)) return CINGHJALOFA_INVALID_ENTRY;
    return cinghjalofa_fields_batch(CINGHJALOFA_LENT(own), calls, words, answers, places);
}

/* The state of an image, and 0; -2, and nothing changed, where the bytes are no image of a sound allocator. */
CINGHJALOFA_INLINE int64_t cinghjalofa_own_import(struct cinghjalofa_own *own, const uint8_t *image, size_t len) {
    struct cinghjalofa_own read;
    int64_t answer;
    cinghjalofa_own_new(&read);
    answer = cinghjalofa_fields_import(CINGHJALOFA_LENT(&read), image, len);
    if (answer >= 0) *own = read;
    return answer;
}

/* Writes the image of the state, and answers 0; -2, and no byte changed, where it is not sound, or `len` is another. */
CINGHJALOFA_INLINE int64_t cinghjalofa_own_export(const struct cinghjalofa_own *own, uint8_t *image, size_t len) {
    if (!cinghjalofa_own_has_bits(own)) return CINGHJALOFA_INVALID_ENTRY;
    return cinghjalofa_fields_export(CINGHJALOFA_SHOWN(own), image, len);
}

/* The number of free bytes, the lowest figure and the listing, as cinghjalofa_total, cinghjalofa_lowest and cinghjalofa_listing give them; the state is
 * checked. (The numbers alone, not checked, are own->total and own->lowest.) */
CINGHJALOFA_INLINE int64_t cinghjalofa_own_total(const struct cinghjalofa_own *own, uint64_t *total) {
    if (!cinghjalofa_own_has_bits(own)) return CINGHJALOFA_INVALID_ENTRY;
    return cinghjalofa_fields_total(CINGHJALOFA_SHOWN(own), total);
}

CINGHJALOFA_INLINE int64_t cinghjalofa_own_lowest(const struct cinghjalofa_own *own, uint64_t *lowest) {
    if (!cinghjalofa_own_has_bits(own)) return CINGHJALOFA_INVALID_ENTRY;
    return cinghjalofa_fields_lowest(CINGHJALOFA_SHOWN(own), lowest);
}

CINGHJALOFA_INLINE int64_t cinghjalofa_own_listing(const struct cinghjalofa_own *own, uint64_t *starts, size_t starts_len, uint64_t *lasts, size_t lasts_len) {
    if (!cinghjalofa_own_has_bits(own)) return CINGHJALOFA_INVALID_ENTRY;
    return cinghjalofa_fields_listing(CINGHJALOFA_SHOWN(own), starts, starts_len, lasts, lasts_len);
}

#ifdef __cplusplus
}
#endif

#endif
