/* Lists of calls: their answers in their places, cuts between any two calls, and what a refused list leaves. */
#include "calls.h"

#include <inttypes.h>
#include <stdio.h>
#include <string.h>

#define COUNT(array) (sizeof(array) / sizeof(array)[0])
#define MOST_CALLS 16
#define OLD INT64_C(0x5a5a5a5a5a5a5a5a) /* no call is answered so */

static uint8_t image[IMAGE_BYTES];

/* A list and its answers as document 02's request and docs/REQUESTS.md give them, from the empty allocator. */
struct list {
    const char *what;
    size_t words, places;
    int64_t wanted;
    uint64_t calls[4 * MOST_CALLS];
    int64_t answers[MOST_CALLS];
};

static const struct list LISTS[] = {
    {"no calls", 0, 0, 0, {0}, {0}},
    {"no calls, and places", 0, 3, 0, {0}, {OLD, OLD, OLD}},
    {"a word that the call does not use", 4, 1, 0, {1, 0, 100, 7}, {0}},
    {"kinds are whole words", 12, 3, 0, {257, 0, 100, 0, (UINT64_C(1) << 32) + 1, 0, 100, 0, 0, 0, 100, 0}, {-4, -4, -4}},
    {"an unknown kind, and calls behind it", 16, 4, 0, {1, 0, 100, 0, 9, 0, 0, 0, 1, 0, 100, 0, 2, 10, 0, 0}, {0, -4, -4, 0}},
    {"just as many places", 8, 2, 0, {1, 65536, 65536, 0, 2, 4096, 0, 0}, {0, 65536}},
    {"places past the list", 8, 4, 0, {1, 65536, 65536, 0, 2, 4096, 0, 0}, {0, 65536, OLD, OLD}},
    {"one place too few", 8, 1, -4, {1, 65536, 65536, 0, 2, 4096, 0, 0}, {OLD}},
    {"no place", 4, 0, -4, {1, 0, 100, 0}, {0}},
    {"three words", 3, 4, -4, {1, 0, 100}, {OLD, OLD, OLD, OLD}},
    {"one call and a word", 5, 4, -4, {1, 0, 100, 0, 2}, {OLD, OLD, OLD, OLD}},
    {"a word, and no place", 1, 0, -4, {1}, {0}},
    {"the numbers in their order", 20, 5, 0,
     {1, 65536, 65536, 0, 3, 70000, 100, 12, 2, 8192, 14, 0, 3, 70000, 100, 12, 1, 69632, 4096, 0},
     {0, 0, 81920, -4, 0}},
};

static void begin(void)
{
    if (cinghjalofa_new(image, sizeof image) != 0)
        fail("new was refused");
    calls_made++;
}

static void complain(const char *what, const char *how)
{
    char text[160];

    snprintf(text, sizeof text, "the list `%s`: %s", what, how);
    fail(text);
}

/* The calls, one by one, by the functions for one; those of unknown kind aside. */
static int64_t make_singly(const uint64_t *call)
{
    calls_made++;
    switch (call[0]) {
    case CINGHJALOFA_FREE: return cinghjalofa_free(image, sizeof image, call[1], call[2]);
    case CINGHJALOFA_ALLOCATE: return cinghjalofa_allocate(image, sizeof image, call[1], call[2]);
    case CINGHJALOFA_RESERVE: return cinghjalofa_reserve_memory(image, sizeof image, call[1], call[2], call[3]);
    default: return -4;
    }
}

static void play_list(const struct list *list)
{
    uint8_t before[IMAGE_BYTES];
    int64_t answers[MOST_CALLS + 1];

    begin();
    memcpy(before, image, sizeof before);
    for (size_t i = 0; i < COUNT(answers); i++)
        answers[i] = OLD;
    if (cinghjalofa_batch(image, sizeof image, list->calls, list->words, answers, list->places) != list->wanted)
        complain(list->what, "another answer to the list");
    calls_made++;
    if (memcmp(answers, list->answers, list->places * sizeof answers[0]) != 0)
        complain(list->what, "another answer in a place");
    if (answers[list->places] != OLD)
        complain(list->what, "a place behind the slice was changed");
    if (list->wanted < 0 && memcmp(image, before, sizeof before) != 0)
        complain(list->what, "a refusal changed the image");
}

/* The first k calls and then the rest, for every k, and all one by one: the same answers and the same bytes. */
static void cut_list(const struct list *list)
{
    const size_t count = list->words / 4;
    uint8_t whole[IMAGE_BYTES];
    int64_t answers[MOST_CALLS];

    begin();
    cinghjalofa_batch(image, sizeof image, list->calls, list->words, answers, list->places);
    memcpy(whole, image, sizeof whole);
    for (size_t k = 0; k <= count; k++) {
        begin();
        memset(answers, 0x5a, sizeof answers);
        if (cinghjalofa_batch(image, sizeof image, list->calls, 4 * k, answers, k) != 0 ||
            cinghjalofa_batch(image, sizeof image, list->calls + 4 * k, list->words - 4 * k, answers + k, list->places - k) != 0)
            complain(list->what, "a part of it was refused");
        calls_made += 2;
        if (memcmp(answers, list->answers, list->places * sizeof answers[0]) != 0)
            complain(list->what, "cut in two, it has another answer in a place");
        if (memcmp(image, whole, sizeof whole) != 0)
            complain(list->what, "cut in two, it leaves another image");
    }
    begin();
    for (size_t k = 0; k < count; k++)
        if (make_singly(list->calls + 4 * k) != list->answers[k])
            complain(list->what, "a call made singly has another answer");
    if (memcmp(image, whole, sizeof whole) != 0)
        complain(list->what, "the calls made singly leave another image");
}

/* A slice of another length, or a damaged image, is -2 before all that can be wrong with the list. */
static void refuse_images(const struct list *list)
{
    static const size_t LENGTHS[] = {0, 1, IMAGE_BYTES - 1};
    uint8_t before[IMAGE_BYTES];
    int64_t answers[MOST_CALLS], old[MOST_CALLS];

    memset(old, 0x5a, sizeof old);
    begin();
    image[5] ^= 1;
    memcpy(before, image, sizeof before);
    memcpy(answers, old, sizeof answers);
    if (cinghjalofa_batch(image, sizeof image, list->calls, list->words, answers, list->places) != -2)
        complain(list->what, "over a damaged image it is not answered -2");
    calls_made++;
    begin();
    for (size_t i = 0; i < COUNT(LENGTHS); i++, calls_made++)
        if (cinghjalofa_batch(image, LENGTHS[i], list->calls, list->words, answers, list->places) != -2)
            complain(list->what, "over a slice of another length it is not answered -2");
    image[5] ^= 1;
    if (memcmp(image, before, sizeof before) != 0 || memcmp(answers, old, sizeof old) != 0)
        complain(list->what, "a refusal changed the image or a place");
}

/* Slices with nothing in them, and no memory behind them. */
static void test_null_lists(void)
{
    begin();
    if (cinghjalofa_batch(image, sizeof image, NULL, 0, NULL, 0) != 0)
        fail("a list of no calls without memory did not answer 0");
    if (cinghjalofa_batch(NULL, 0, NULL, 0, NULL, 0) != -2)
        fail("a list over NULL and length 0 did not answer -2");
    calls_made += 2;
}

void test_lists(void)
{
    test_null_lists();
    for (size_t i = 0; i < COUNT(LISTS); i++) {
        play_list(&LISTS[i]);
        refuse_images(&LISTS[i]);
        if (LISTS[i].wanted == 0)
            cut_list(&LISTS[i]);
    }
}
