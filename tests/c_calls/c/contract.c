/* What holds of every function for every slice: lengths, places, damaged images, and which refusal comes first. */
#include "calls.h"

#include <string.h>

#define COUNT(array) (sizeof(array) / sizeof(array)[0])
#define MIDDLE 32768

static const struct call EMPTY = {NEW, 0, 0, 0};

/* Accepted by the sample image, one for each function. */
static const struct call GOOD[] = {
    {NEW, 0, 0, 0},
    {ALLOCATE, 0, 4096, 12},
    {RESERVE, 70000, 100, 12},
    {FREE, 4096, 4096, 0},
    {ALLOCATE_PAGES, 0, 1, 0},
    {FREE_PAGES, 4096, 1, 0},
};

/* Refused by the sample image with -4. */
static const struct call BAD[] = {
    {ALLOCATE, 0, 0, 0},
    {ALLOCATE, 0, 1, 64},
    {RESERVE, 70000, 0, 0},
    {RESERVE, 70000, 1, 64},
    {RESERVE, UINT64_MAX, 1, 0},
    {FREE, 4096, 0, 0},
    {FREE, UINT64_MAX, UINT64_MAX, 0},
    {FREE, 65536, 1, 0},
    {ALLOCATE_PAGES, 0, 0, 0},
    {ALLOCATE_PAGES, 0, CINGHJALOFA_MOST_PAGES + 1, 0},
    {ALLOCATE_PAGES, 0, 1, 64},
    {FREE_PAGES, 4096, 0, 0},
    {FREE_PAGES, 4096 + CINGHJALOFA_PAGE_BYTES / 2, 1, 0},
    {FREE_PAGES, 65536, 1, 0},
};

static const size_t WRONG_LENGTHS[] = {0, 1, 1370, 6439, IMAGE_BYTES - 1, IMAGE_BYTES + 1, 8192}; /* 1370: version 1; 6439: version 2 */

/* The image of the empty allocator: version 3, length of the rest, total 0, no link anywhere, and eight bytes of 255 for the lowest figure. */
static void write_empty_image(uint8_t *image)
{
    static const uint8_t HEAD[] = {3, 0, 0, 6442 / 256, 6442 % 256, 0, 0, 0, 0, 0, 0, 0, 0};

    memset(image, 0, IMAGE_BYTES);
    memcpy(image, HEAD, sizeof HEAD);
    memset(image + sizeof HEAD, 255, 2 * (1 + 12) + 8);
    for (size_t record = 0; record < 256; record++)
        memset(image + 47 + 25 * record + 17, 255, 8);
}

/* Two free ranges: 16384 bytes from 65536 and 65536 bytes from 131072. */
static void make_sample(uint8_t *image)
{
    static const struct call FREES[] = {{FREE, 65536, 16384, 0}, {FREE, 131072, 65536, 0}};

    fill_area();
    expect(EMPTY, MIDDLE, IMAGE_BYTES, 0, "a slice of the right length");
    for (size_t i = 0; i < COUNT(FREES); i++)
        expect(FREES[i], MIDDLE, IMAGE_BYTES, 0, "nothing is in the way");
    memcpy(image, area + MIDDLE, IMAGE_BYTES);
}

static void refuse_length(struct call call, const uint8_t *sample, size_t len)
{
    /* all the bytes of a sound image lie there, so that only the length can be the reason */
    fill_area();
    put_image(sample, MIDDLE);
    expect(call, MIDDLE, len, -2, "another length is refused before all else");
    /* nothing lies beyond the slice: before it, and then behind it */
    fill_area();
    if (len >= IMAGE_BYTES)
        put_image(sample, 0);
    expect(call, 0, len, -2, "another length is refused before all else");
    fill_area();
    if (len >= IMAGE_BYTES)
        put_image(sample, AREA_BYTES - len);
    expect(call, AREA_BYTES - len, len, -2, "another length is refused before a byte is read");
}

static void test_lengths(const uint8_t *sample)
{
    for (size_t i = 0; i < COUNT(WRONG_LENGTHS); i++) {
        for (size_t k = 0; k < COUNT(GOOD); k++)
            refuse_length(GOOD[k], sample, WRONG_LENGTHS[i]);
        for (size_t k = 0; k < COUNT(BAD); k++)
            refuse_length(BAD[k], sample, WRONG_LENGTHS[i]);
    }
}

/* `len` 0 with no memory at all: the header allows it. */
static void test_null(void)
{
    if (cinghjalofa_new(NULL, 0) != -2 || cinghjalofa_allocate(NULL, 0, 1, 0) != -2 ||
        cinghjalofa_reserve_memory(NULL, 0, 0, 1, 0) != -2 || cinghjalofa_free(NULL, 0, 0, 1) != -2 ||
        cinghjalofa_allocate_pages(NULL, 0, 1, 0) != -2 || cinghjalofa_free_pages(NULL, 0, 0, 1) != -2)
        fail("a call over NULL and length 0 did not answer -2");
    calls_made += 6;
}

static void test_new_at(size_t at)
{
    static const uint8_t OLD[] = {0, 1, 0xa5, 255};
    uint8_t wanted[IMAGE_BYTES];

    write_empty_image(wanted);
    for (size_t i = 0; i < COUNT(OLD); i++) {
        fill_area();
        memset(area + at, OLD[i], IMAGE_BYTES);
        expect(EMPTY, at, IMAGE_BYTES, 0, "new overwrites whatever is there");
        if (memcmp(area + at, wanted, IMAGE_BYTES) != 0)
            fail("the image is not that of the empty allocator");
    }
}

/* The same calls give the same answers and the same bytes wherever the image lies. */
static void test_calls_at(size_t at, const uint8_t *sample, uint8_t after[][IMAGE_BYTES], int is_first)
{
    static const int64_t ANSWERS[] = {0, 65536, 0, 0, 65536, 0};

    for (size_t k = 0; k < COUNT(GOOD); k++) {
        fill_area();
        put_image(sample, at);
        expect(GOOD[k], at, IMAGE_BYTES, ANSWERS[k], "a good request over a sound image");
        if (is_first)
            memcpy(after[k], area + at, IMAGE_BYTES);
        else if (memcmp(after[k], area + at, IMAGE_BYTES) != 0)
            fail("the image differs from the one that the same call wrote at another address");
    }
    for (size_t k = 0; k < COUNT(BAD); k++) {
        fill_area();
        put_image(sample, at);
        expect(BAD[k], at, IMAGE_BYTES, -4, "a bad request over a sound image");
    }
}

static void test_places(const uint8_t *sample)
{
    static uint8_t after[COUNT(GOOD)][IMAGE_BYTES];

    test_calls_at(0, sample, after, 1);
    test_new_at(0);
    test_calls_at(AREA_BYTES - IMAGE_BYTES, sample, after, 0);
    test_new_at(AREA_BYTES - IMAGE_BYTES);
    for (size_t shift = 1; shift <= 16; shift++) {
        test_calls_at(MIDDLE + shift, sample, after, 0);
        test_new_at(MIDDLE + shift);
    }
}

/* One byte of each field of the sample, changed; `new` takes what the others refuse. */
static void test_damaged(const uint8_t *sample)
{
    static const size_t FIELDS[] = {0, 1, 4, 5, 12, 13, 14, 15, 38, 39, 44, 47, 62, 63, 64, 65, 66, 68, 70, 71, 97, 113, 114, 6422, 6438, 6446};
    const size_t at = MIDDLE + 3;

    for (size_t i = 0; i < COUNT(FIELDS); i++) {
        fill_area();
        put_image(sample, at);
        area[at + FIELDS[i]] ^= 2;
        for (size_t k = 1; k < COUNT(GOOD); k++)
            expect(GOOD[k], at, IMAGE_BYTES, -2, "a damaged image");
        for (size_t k = 0; k < COUNT(BAD); k++)
            expect(BAD[k], at, IMAGE_BYTES, -2, "a damaged image comes before a bad request");
        expect(EMPTY, at, IMAGE_BYTES, 0, "new overwrites whatever is there");
    }
}

void test_contract(void)
{
    uint8_t sample[IMAGE_BYTES];

    make_sample(sample);
    test_lengths(sample);
    test_null();
    test_places(sample);
    test_damaged(sample);
}
