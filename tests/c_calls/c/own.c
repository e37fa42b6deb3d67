/* A state of one's own: the same answers and the same image as the calls over an image, checked and unchecked; a stray write is noticed. */
#include "calls.h"

#include <inttypes.h>
#include <stddef.h>
#include <stdio.h>
#include <string.h>

#define HISTORY 20000
#define COMPARED_EVERY 97
#define KINDS 7 /* 0 and 6 are none */
#define FIELD_BYTES (offsetof(struct cinghjalofa_own, first) + sizeof(uint16_t))

static uint8_t image[IMAGE_BYTES];
static struct cinghjalofa_own checked, unchecked;
static uint64_t seed;

static uint64_t below(uint64_t bound)
{
    seed = seed * UINT64_C(6364136223846793005) + UINT64_C(1442695040888963407);
    return (seed >> 33) % bound;
}

static void begin(void)
{
    cinghjalofa_new(image, sizeof image);
    cinghjalofa_own_new(&checked);
    cinghjalofa_own_new(&unchecked);
    calls_made += 3;
}

static void complain(const char *what, const uint64_t *call)
{
    char text[200];

    snprintf(text, sizeof text, "a state of one's own: %s, after %" PRIu64 " %" PRIu64 " %" PRIu64 " %" PRIu64, what, call[0], call[1], call[2], call[3]);
    fail(text);
}

static int64_t over_image(const uint64_t *call)
{
    switch (call[0]) {
    case CINGHJALOFA_FREE: return cinghjalofa_free(image, sizeof image, call[1], call[2]);
    case CINGHJALOFA_ALLOCATE: return cinghjalofa_allocate(image, sizeof image, call[1], call[2]);
    case CINGHJALOFA_RESERVE: return cinghjalofa_reserve_memory(image, sizeof image, call[1], call[2], call[3]);
    case CINGHJALOFA_ALLOCATE_PAGES: return cinghjalofa_allocate_pages(image, sizeof image, call[1], call[2]);
    case CINGHJALOFA_FREE_PAGES: return cinghjalofa_free_pages(image, sizeof image, call[1], call[2]);
    default: return CINGHJALOFA_INVALID_REQUEST;
    }
}

/* By the function of that name. */
static int64_t by_name(const uint64_t *call)
{
    switch (call[0]) {
    case CINGHJALOFA_FREE: return cinghjalofa_own_free(&checked, call[1], call[2]);
    case CINGHJALOFA_ALLOCATE: return cinghjalofa_own_allocate(&checked, call[1], call[2]);
    case CINGHJALOFA_RESERVE: return cinghjalofa_own_reserve_memory(&checked, call[1], call[2], call[3]);
    case CINGHJALOFA_ALLOCATE_PAGES: return cinghjalofa_own_allocate_pages(&checked, call[1], call[2]);
    case CINGHJALOFA_FREE_PAGES: return cinghjalofa_own_free_pages(&checked, call[1], call[2]);
    default: return cinghjalofa_own_call(&checked, call[0], call[1], call[2], call[3]);
    }
}

static int64_t by_name_unchecked(const uint64_t *call)
{
    switch (call[0]) {
    case CINGHJALOFA_FREE: return cinghjalofa_own_free_unchecked(&unchecked, call[1], call[2]);
    case CINGHJALOFA_ALLOCATE: return cinghjalofa_own_allocate_unchecked(&unchecked, call[1], call[2]);
    case CINGHJALOFA_RESERVE: return cinghjalofa_own_reserve_memory_unchecked(&unchecked, call[1], call[2], call[3]);
    case CINGHJALOFA_ALLOCATE_PAGES: return cinghjalofa_own_allocate_pages_unchecked(&unchecked, call[1], call[2]);
    case CINGHJALOFA_FREE_PAGES: return cinghjalofa_own_free_pages_unchecked(&unchecked, call[1], call[2]);
    default: return cinghjalofa_own_call_unchecked(&unchecked, call[0], call[1], call[2], call[3]);
    }
}

static void compare_images(const uint64_t *call)
{
    uint8_t one[IMAGE_BYTES], two[IMAGE_BYTES];

    if (cinghjalofa_own_export(&checked, one, sizeof one) != 0 || cinghjalofa_own_export(&unchecked, two, sizeof two) != 0)
        complain("its image was refused", call);
    if (memcmp(one, image, sizeof one) != 0 || memcmp(two, image, sizeof two) != 0)
        complain("another image", call);
    calls_made += 2;
}

/* Small numbers, so that most calls meet what the earlier ones left. */
static void random_call(uint64_t *call)
{
    call[0] = below(KINDS);
    switch (call[0]) {
    case CINGHJALOFA_ALLOCATE: call[1] = below(3000); call[2] = below(9); call[3] = below(5); break;
    case CINGHJALOFA_ALLOCATE_PAGES: call[1] = below(3); call[2] = below(15); call[3] = below(5); break;
    case CINGHJALOFA_FREE_PAGES: call[1] = 4096 * below(64) + (below(9) == 0); call[2] = below(3); call[3] = below(5); break;
    default: call[1] = below(300000); call[2] = below(2000); call[3] = below(9); break;
    }
}

static void play_history(void)
{
    uint64_t call[4];
    int64_t due;

    begin();
    for (int i = 0; i < HISTORY; i++) {
        random_call(call);
        due = over_image(call);
        if (by_name(call) != due)
            complain("another answer, checked", call);
        if (by_name_unchecked(call) != due)
            complain("another answer, unchecked", call);
        calls_made += 3;
        if (i % COMPARED_EVERY == 0)
            compare_images(call);
    }
    compare_images(call);
}

/* A list on it is what the list is over the image. */
static void play_lists(void)
{
    uint64_t calls[4 * 64];
    int64_t due[64], answers[64];

    begin();
    for (int round = 0; round < 50; round++) {
        for (size_t i = 0; i < 64; i++)
            random_call(calls + 4 * i);
        memset(due, 0x5a, sizeof due);
        memset(answers, 0x5a, sizeof answers);
        if (cinghjalofa_batch(image, sizeof image, calls, 4 * 64, due, 64) != 0 || cinghjalofa_own_batch(&checked, calls, 4 * 64, answers, 64) != 0)
            complain("a list was refused", calls);
        if (memcmp(due, answers, sizeof due) != 0)
            complain("another answer in a place", calls);
        unchecked = checked;
        compare_images(calls);
        calls_made += 2;
    }
    if (cinghjalofa_own_batch(&checked, calls, 4 * 64, answers, 63) != CINGHJALOFA_INVALID_REQUEST || cinghjalofa_own_batch(&checked, calls, 3, answers, 64) != CINGHJALOFA_INVALID_REQUEST)
        complain("a list that does not fit was served", calls);
    compare_images(calls);
    calls_made += 2;
}

static uint64_t number_at(const uint8_t *bytes)
{
    uint64_t number = 0;

    for (int i = 0; i < 8; i++)
        number = number << 8 | bytes[i];
    return number;
}

/* A lowest figure that is not above the total may stand beside it, whatever it was. */
static int fits(uint64_t lowest, uint64_t total)
{
    return lowest <= total;
}

/* With any byte of the fields written over, every checked call is -2 and changes nothing; but for a lowest figure that fits as well. */
static void damage(void)
{
    static const uint64_t CALLS[][4] = {{1, 900000, 4096, 0}, {2, 16, 0, 0}, {3, 0, 1, 0}, {4, 1, 12, 0}, {5, 4096, 1, 0}, {9, 0, 0, 0}};
    const struct cinghjalofa_own sound = checked;
    uint8_t bytes[IMAGE_BYTES], before[IMAGE_BYTES];
    int64_t places[1] = {77};
    struct cinghjalofa_own damaged;
    size_t noticed = 0;

    memset(before, 0xa5, sizeof before);
    for (size_t at = 0; at < FIELD_BYTES; at++) {
        memcpy(&damaged, &sound, sizeof damaged);
        ((unsigned char *)&damaged)[at] ^= 0x80;
        if (damaged.lowest != sound.lowest && fits(damaged.lowest, damaged.total))
            continue;
        noticed++;
        memcpy(&checked, &damaged, sizeof damaged);
        memcpy(bytes, before, sizeof bytes);
        if (cinghjalofa_own_is_sound(&checked))
            complain("a damaged one passes for sound", CALLS[0]);
        for (size_t i = 0; i < sizeof CALLS / sizeof CALLS[0]; i++)
            if (by_name(CALLS[i]) != CINGHJALOFA_INVALID_ENTRY)
                complain("a damaged one was served", CALLS[i]);
        if (cinghjalofa_own_batch(&checked, CALLS[0], 4, places, 1) != CINGHJALOFA_INVALID_ENTRY || places[0] != 77)
            complain("a damaged one was served a list", CALLS[0]);
        if (cinghjalofa_own_export(&checked, bytes, sizeof bytes) != CINGHJALOFA_INVALID_ENTRY || memcmp(bytes, before, sizeof bytes) != 0)
            complain("a damaged one was exported", CALLS[0]);
        if (memcmp(&checked, &damaged, FIELD_BYTES) != 0)
            complain("a refusal changed a field", CALLS[0]);
        calls_made += 9;
    }
    memcpy(&checked, &sound, sizeof sound);
    if (noticed < FIELD_BYTES - 7)
        complain("fewer bytes are tried than matter", CALLS[0]);
}

/* An image goes in whole or not at all, and comes out again. */
static void move_images(void)
{
    static const uint64_t NONE[4] = {0};
    struct cinghjalofa_own before;
    uint8_t bytes[IMAGE_BYTES];

    cinghjalofa_own_new(&unchecked);
    if (cinghjalofa_own_import(&unchecked, image, sizeof image) != 0)
        complain("an image was not taken", NONE);
    compare_images(NONE);
    memcpy(&before, &unchecked, sizeof before);
    for (size_t at = 0; at < sizeof image; at++) {
        memcpy(bytes, image, sizeof bytes);
        bytes[at] ^= 0x80;
        if (at >= 39 && at < 47 && fits(number_at(bytes + 39), number_at(bytes + 5)))
            continue;
        if (cinghjalofa_own_import(&unchecked, bytes, sizeof bytes) != CINGHJALOFA_INVALID_ENTRY)
            complain("a damaged image was taken", NONE);
    }
    if (cinghjalofa_own_import(&unchecked, image, sizeof image - 1) != CINGHJALOFA_INVALID_ENTRY || cinghjalofa_own_import(&unchecked, NULL, 0) != CINGHJALOFA_INVALID_ENTRY)
        complain("an image of another length was taken", NONE);
    if (memcmp(&before, &unchecked, FIELD_BYTES) != 0)
        complain("a refused image changed a field", NONE);
    if (cinghjalofa_own_export(&unchecked, bytes, sizeof bytes - 1) != CINGHJALOFA_INVALID_ENTRY)
        complain("an image of another length was written", NONE);
    calls_made += sizeof image + 4;
}

void test_own(void)
{
    for (seed = 1; seed < 4; seed++) {
        uint64_t next = seed;
        play_history();
        damage();
        move_images();
        play_lists();
        seed = next;
    }
}
