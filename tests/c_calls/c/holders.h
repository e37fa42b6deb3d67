/* What the two parts with holders share, in C89: the image that stands in the middle of the area, and a call over it. */
#ifndef HOLDERS_H
#define HOLDERS_H

#include "calls.h"

#define BYTES CINGHJALOFA_HOLDERS_IMAGE_BYTES
#define ENTRIES CINGHJALOFA_HELD_RANGES
#define MEMORY_AT (BYTES - IMAGE_BYTES)
#define MIDDLE 32768

/* holders.c: a new image there; a call over it by its letter in holders.txt, numbers that it has not being 0 */
void begin_here(void);
void ask_here(char letter, uint64_t a, uint64_t b, uint64_t c, uint64_t d, int64_t wanted, const char *why);
uint8_t *entry_here(size_t number);
uint64_t number_at(const uint8_t *bytes);

/* holder_cases.c */
void test_holder_cases(const char *path);

#endif
