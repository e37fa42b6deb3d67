/* An allocator with holders, in C89: the rules for every slice, images whose register is not sound, a full register, all records used. */
#include "holders.h"

#include <stdio.h>
#include <string.h>

#define COUNT(array) (sizeof(array) / sizeof(array)[0])
#define ENTRIES_AT 5
#define ENTRY_BYTES 17

/* o, a, r and f as holders.txt has them, and n: a new image */
struct asked {
    char letter;
    uint64_t numbers[4];
};

static int64_t make(struct asked asked, uint8_t *image, size_t len)
{
    const uint64_t *n = asked.numbers;

    switch (asked.letter) {
    case 'n': return cinghjalofa_holders_new(image, len);
    case 'o': return cinghjalofa_holders_offer(image, len, n[0], n[1]);
    case 'a': return cinghjalofa_holders_allocate(image, len, n[0], n[1], n[2]);
    case 'r': return cinghjalofa_holders_reserve_memory(image, len, n[0], n[1], n[2], n[3]);
    default: return cinghjalofa_holders_free(image, len, n[0], n[1], n[2]);
    }
}

static void ask(struct asked asked, size_t at, size_t len, int64_t wanted, const char *why)
{
    const uint64_t *n = asked.numbers;
    char what[160];
    int64_t answer;

    sprintf(what, "holders: %c %lu %lu %lu %lu over %lu bytes at %lu", asked.letter, (unsigned long)n[0], (unsigned long)n[1],
            (unsigned long)n[2], (unsigned long)n[3], (unsigned long)len, (unsigned long)at);
    begin_call(what);
    answer = make(asked, area + at, len);
    end_call(at, len, answer);
    judge_answer(answer, wanted, why);
}

void ask_here(char letter, uint64_t a, uint64_t b, uint64_t c, uint64_t d, int64_t wanted, const char *why)
{
    struct asked asked;

    asked.letter = letter;
    asked.numbers[0] = a;
    asked.numbers[1] = b;
    asked.numbers[2] = c;
    asked.numbers[3] = d;
    ask(asked, MIDDLE, BYTES, wanted, why);
}

void begin_here(void)
{
    fill_area();
    ask_here('n', 0, 0, 0, 0, 0, "a slice of the right length");
}

uint64_t number_at(const uint8_t *bytes)
{
    uint64_t number = 0;
    int i;

    for (i = 0; i < 8; i++)
        number = number << 8 | bytes[i];
    return number;
}

static void put_number(uint8_t *bytes, uint64_t number)
{
    int i;

    for (i = 0; i < 8; i++)
        bytes[i] = (uint8_t)(number >> (56 - 8 * i));
}

uint8_t *entry_here(size_t number)
{
    return area + MIDDLE + ENTRIES_AT + ENTRY_BYTES * number;
}

/* ---- Every slice */

/* Accepted by the sample, with their answers; and refused by it. */
static const struct asked GOOD[] = {{'n', {0, 0, 0, 0}}, {'o', {0x5000, 16, 0, 0}}, {'a', {2, 16, 4, 0}}, {'r', {16, 0x1101, 1, 4}}, {'f', {1, 0x1000, 16, 0}}};
static const int64_t ANSWERS[] = {0, 0, 0x1010, 0, 0};
static const struct asked BAD[] = {{'o', {0x5000, 0, 0, 0}},   {'o', {0x1010, 1, 0, 0}},       {'a', {0, 1, 0, 0}},
                                   {'a', {17, 1, 0, 0}},       {'a', {1, 0, 0, 0}},            {'a', {1, 1, 64, 0}},
                                   {'r', {257, 0x1010, 1, 0}}, {'r', {1, 0x1000, 1, 0}},       {'f', {0, 0x1000, 16, 0}},
                                   {'f', {1, 0x1010, 1, 0}},   {'f', {1, (uint64_t)-1, 1, 0}}, {'f', {UINT64_MAX, 0x1000, 16, 0}}};

/* 0x1000 to 0x1fff are offered, and holder 1 has the first 16 of them. */
static void make_sample(uint8_t *sample)
{
    begin_here();
    ask_here('o', 0x1000, 0x1000, 0, 0, 0, "nothing is in the way");
    ask_here('a', 1, 16, 0, 0, 0x1000, "the only range");
    memcpy(sample, area + MIDDLE, BYTES);
}

static void put_sample(const uint8_t *sample, size_t at)
{
    fill_area();
    memcpy(area + at, sample, BYTES);
}

static void refuse_length(struct asked asked, const uint8_t *sample, size_t len)
{
    put_sample(sample, MIDDLE);
    ask(asked, MIDDLE, len, -2, "another length is refused before all else");
    fill_area();
    ask(asked, 0, len, -2, "another length is refused before all else");
    ask(asked, AREA_BYTES - len, len, -2, "another length is refused before all else");
}

static void test_lengths(const uint8_t *sample)
{
    static const size_t WRONG[] = {0, 1, MEMORY_AT, IMAGE_BYTES, BYTES - 1, BYTES + 1, 8192};
    size_t i, k;

    for (i = 0; i < COUNT(WRONG); i++) {
        for (k = 0; k < COUNT(GOOD); k++)
            refuse_length(GOOD[k], sample, WRONG[i]);
        for (k = 0; k < COUNT(BAD); k++)
            refuse_length(BAD[k], sample, WRONG[i]);
    }
    for (k = 0; k < COUNT(GOOD); k++)
        if (make(GOOD[k], NULL, 0) != -2)
            fail("a call over NULL and length 0 did not answer -2");
}

/* The same answers and the same bytes wherever the image lies. */
static void test_at(size_t at, const uint8_t *sample, uint8_t after[][BYTES], int is_first)
{
    size_t k;

    for (k = 0; k < COUNT(GOOD); k++) {
        put_sample(sample, at);
        ask(GOOD[k], at, BYTES, ANSWERS[k], "a good request over a sound image");
        if (is_first)
            memcpy(after[k], area + at, BYTES);
        else if (memcmp(after[k], area + at, BYTES) != 0)
            fail("the image differs from the one that the same call wrote at another address");
    }
    put_sample(sample, at);
    for (k = 0; k < COUNT(BAD); k++)
        ask(BAD[k], at, BYTES, -4, "a bad request over a sound image");
}

static void test_places(const uint8_t *sample)
{
    static uint8_t after[COUNT(GOOD)][BYTES];
    size_t shift;

    test_at(0, sample, after, 1);
    test_at(AREA_BYTES - BYTES, sample, after, 0);
    for (shift = 1; shift <= 16; shift++)
        test_at(MIDDLE + shift, sample, after, 0);
}

static void test_new(void)
{
    static const uint8_t OLD[] = {0, 1, 0xa5, 255};
    static uint8_t wanted[BYTES];
    size_t i;

    memset(wanted, 0, BYTES);
    wanted[0] = 1;
    wanted[3] = (BYTES - 5) / 256;
    wanted[4] = (BYTES - 5) % 256;
    cinghjalofa_new(wanted + MEMORY_AT, IMAGE_BYTES);
    for (i = 0; i < COUNT(OLD); i++) {
        fill_area();
        memset(area + MIDDLE, OLD[i], BYTES);
        ask_here('n', 0, 0, 0, 0, 0, "new overwrites whatever is there");
        if (memcmp(area + MIDDLE, wanted, BYTES) != 0)
            fail("the image is not that of the empty allocator with an empty register");
    }
}

/* ---- Images */

/* Every call but `new`, good and bad: -2 where it is not sound, and never where it is. */
static void judge_here(int is_sound, const char *why)
{
    static uint8_t kept[BYTES];
    size_t k;

    memcpy(kept, area + MIDDLE, BYTES);
    for (k = 1; k < COUNT(GOOD) && !is_sound; k++)
        ask(GOOD[k], MIDDLE, BYTES, -2, why);
    for (k = 0; k < COUNT(BAD) && !is_sound; k++)
        ask(BAD[k], MIDDLE, BYTES, -2, "a damaged image comes before a bad request");
    if (is_sound) {
        ask(BAD[3], MIDDLE, BYTES, -4, why);
        ask(GOOD[2], MIDDLE, BYTES, ANSWERS[2], why);
    }
    memcpy(area + MIDDLE, kept, BYTES);
}

static void test_damaged(const uint8_t *sample)
{
    static const size_t FIELDS[] = {0, 1, 4, 6, 13, 14, 22, 23, 31, 1092, MEMORY_AT, MEMORY_AT + 4, MEMORY_AT + 12, MEMORY_AT + 14, BYTES - 1};
    size_t i;

    for (i = 0; i < COUNT(FIELDS); i++) {
        put_sample(sample, MIDDLE);
        area[MIDDLE + FIELDS[i]] ^= 0x80;
        judge_here(0, "a damaged image");
    }
}

/* An entry more, beside the sample's. */
struct entry {
    uint8_t holder;
    uint64_t start, last;
    int is_sound;
    const char *what;
};

static void test_entries(const uint8_t *sample)
{
    static const struct entry MORE[] = {
        {0, 0x8000, 0, 0, "a start that was left over"},
        {0, 0, 1, 0, "a last byte that was left over"},
        {0, 0x8000, 0x8fff, 0, "a range of nobody"},
        {17, 0x8000, 0x8fff, 0, "holder 17"},
        {255, 0x8000, 0x8fff, 0, "holder 255"},
        {2, 0x8000, 0x7fff, 0, "no byte"},
        {2, 0x8000, (uint64_t)1 << 63, 0, "past 2^63"},
        {2, 0x1000, 0x100f, 0, "the range of another"},
        {2, 0xff0, 0x1000, 0, "the first byte of another"},
        {2, 0x100f, 0x100f, 0, "the last byte of another"},
        {2, 0x1010, 0x1010, 0, "the first free byte"},
        {2, 0x1fff, 0x2fff, 0, "the last free byte"},
        {2, 0xff0, 0xfff, 1, "it touches another"},
        {1, 0x2000, 0x2fff, 1, "it touches a free range"},
        {16, 0x8000, ((uint64_t)1 << 63) - 1, 1, "it ends with the last address"},
        {3, 0, 0, 1, "byte 0 alone"},
    };
    size_t i, place;

    for (i = 0; i < COUNT(MORE); i++) {
        for (place = 1; place < ENTRIES; place += ENTRIES - 2) {
            put_sample(sample, MIDDLE);
            entry_here(place)[0] = MORE[i].holder;
            put_number(entry_here(place) + 1, MORE[i].start);
            put_number(entry_here(place) + 9, MORE[i].last);
            judge_here(MORE[i].is_sound, MORE[i].what);
        }
    }
}

/* ---- All entries, all records */

static void test_full(void)
{
    int64_t k;

    begin_here();
    ask_here('o', 0, 65, 0, 0, 0, "nothing is in the way");
    for (k = 0; k < ENTRIES; k++)
        ask_here('a', 1, 1, 0, 0, k, "the next byte");
    ask_here('a', 2, 1, 0, 0, -6, "the entries are of all holders together");
    ask_here('a', 1, 0, 0, 0, -4, "a full register is the last reason");
    ask_here('a', 17, 1, 0, 0, -4, "a full register is the last reason");
    ask_here('a', 1, 2, 0, 0, -3, "a full register is the last reason");
    ask_here('r', 1, 0, 1, 0, -4, "a full register is the last reason");
    ask_here('o', 1000, 16, 0, 0, 0, "nothing is in the way");
    ask_here('o', 2000, 16, 0, 0, 0, "nothing is in the way");
    ask_here('r', 1, 1000, 16, 0, -6, "all entries are used");
    ask_here('f', 1, 5, 1, 0, 0, "as it was handed out");
    ask_here('a', 1, 16, 0, 0, 2000, "of equal ranges the newest: a full register changes nothing");
}

static void test_crowded(void)
{
    uint64_t k;

    begin_here();
    ask_here('o', 0, 1, 0, 0, 0, "nothing is in the way");
    ask_here('a', 1, 1, 0, 0, 0, "the only byte");
    for (k = 1; k <= CINGHJALOFA_RECORDS; k++)
        ask_here('o', 2 * k, 1, 0, 0, 0, "a record is unused");
    ask_here('o', 0, 1, 0, 0, -5, "not yours comes before want of a record");
    ask_here('f', 2, 0, 1, 0, -5, "not yours comes before want of a record");
    ask_here('f', 1, 2, 1, 0, -4, "not yours comes after every 4");
    ask_here('o', 600, 1, 0, 0, -1, "it touches no free range");
    ask_here('f', 1, 0, 1, 0, -1, "it touches no free range");
    ask_here('o', 1, 1, 0, 0, 0, "it touches one");
    ask_here('f', 1, 0, 1, 0, 0, "it touches one now");
}

void test_holders(const char *path)
{
    static uint8_t sample[BYTES];

    make_sample(sample);
    test_new();
    test_lengths(sample);
    test_places(sample);
    test_damaged(sample);
    test_entries(sample);
    test_full();
    test_crowded();
    test_holder_cases(path);
}
