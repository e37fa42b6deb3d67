/*
 * Ports broken on purpose: the real calls with one mistake around them, linked in by the linker's --wrap. The variable
 * C_CALLS_BREAKAGE names the mistake.
 */
#include "cinghjalofa.h"

#include <stdio.h>
#include <stdlib.h>
#include <string.h>

#define IMAGE_BYTES CINGHJALOFA_IMAGE_BYTES
#define RECORDS 256
#define LISTS 12
#define NONE 65535
#define HEADS_AT 15
#define LOWEST_AT 39
#define RECORDS_AT 47
#define RECORD_BYTES 25
#define GO_ON 1 /* no refusal */

int64_t __real_cinghjalofa_new(uint8_t *image, size_t len);
int64_t __real_cinghjalofa_upgrade(const uint8_t *old, size_t old_len, uint8_t *image, size_t len);
int64_t __real_cinghjalofa_allocate(uint8_t *image, size_t len, uint64_t size, uint64_t order);
int64_t __real_cinghjalofa_reserve_memory(uint8_t *image, size_t len, uint64_t start, uint64_t size, uint64_t order);
int64_t __real_cinghjalofa_free(uint8_t *image, size_t len, uint64_t start, uint64_t size);
int64_t __real_cinghjalofa_allocate_pages(uint8_t *image, size_t len, uint64_t count, uint64_t order);
int64_t __real_cinghjalofa_free_pages(uint8_t *image, size_t len, uint64_t address, uint64_t count);
int64_t __real_cinghjalofa_batch(uint8_t *image, size_t len, const uint64_t *calls, size_t words, int64_t *answers, size_t places);
int64_t __real_cinghjalofa_total(const uint8_t *image, size_t len, uint64_t *total);
int64_t __real_cinghjalofa_lowest(const uint8_t *image, size_t len, uint64_t *lowest);
int64_t __real_cinghjalofa_listing(const uint8_t *image, size_t len, uint64_t *starts, size_t starts_len, uint64_t *lasts, size_t lasts_len);
int64_t __real_cinghjalofa_holders_new(uint8_t *image, size_t len);
int64_t __real_cinghjalofa_holders_offer(uint8_t *image, size_t len, uint64_t start, uint64_t size);
int64_t __real_cinghjalofa_holders_allocate(uint8_t *image, size_t len, uint64_t holder, uint64_t size, uint64_t order);
int64_t __real_cinghjalofa_holders_reserve_memory(uint8_t *image, size_t len, uint64_t holder, uint64_t start, uint64_t size, uint64_t order);
int64_t __real_cinghjalofa_holders_free(uint8_t *image, size_t len, uint64_t holder, uint64_t start, uint64_t size);

static uint8_t old_image[IMAGE_BYTES];

static int is_breakage(const char *name)
{
    static const char *chosen;

    if (!chosen)
        chosen = getenv("C_CALLS_BREAKAGE");
    if (!chosen) {
        fprintf(stderr, "C_CALLS_BREAKAGE names no breakage\n");
        exit(2);
    }
    return strcmp(chosen, name) == 0;
}

static uint8_t *record_at(uint8_t *image, int number)
{
    return image + RECORDS_AT + RECORD_BYTES * number;
}

static uint64_t number_at(const uint8_t *bytes)
{
    uint64_t number = 0;

    for (int i = 0; i < 8; i++)
        number = number << 8 | bytes[i];
    return number;
}

static void put_number(uint8_t *bytes, uint64_t number)
{
    for (int i = 0; i < 8; i++)
        bytes[i] = (uint8_t)(number >> (56 - 8 * i));
}

static void correct_total(uint8_t *image)
{
    uint64_t total = 0;

    for (int k = 0; k < RECORDS; k++) {
        const uint8_t *record = record_at(image, k);
        if (record[16] == 1)
            total += number_at(record + 8) - number_at(record) + 1;
    }
    put_number(image + 5, total);
}

static void freshen_unused(uint8_t *image)
{
    for (int k = 0; k < RECORDS; k++) {
        uint8_t *record = record_at(image, k);
        if (record[16] == 0) {
            memset(record, 0, 17);
            memset(record + 17, 255, 8);
        }
    }
}

static int reaches_top(uint8_t *image)
{
    for (int k = 0; k < RECORDS; k++)
        if (number_at(record_at(image, k) + 8) == INT64_MAX)
            return 1;
    return 0;
}

static unsigned link_at(const uint8_t *link)
{
    return (unsigned)link[0] << 8 | link[1];
}

static void put_link(uint8_t *link, unsigned number)
{
    link[0] = (uint8_t)(number >> 8);
    link[1] = (uint8_t)number;
}

static void exchange_link(uint8_t *link)
{
    if (link_at(link) < 2)
        put_link(link, 1 - link_at(link));
}

/* The same free ranges, in the same orders: only the numbers of the first two records are the other way round. */
static void exchange_records(uint8_t *image)
{
    uint8_t first[RECORD_BYTES];

    for (int i = 13; i < LOWEST_AT; i += 2)
        exchange_link(image + i);
    for (int k = 0; k < RECORDS; k++)
        for (int i = 17; i < RECORD_BYTES; i += 2)
            exchange_link(record_at(image, k) + i);
    memcpy(first, record_at(image, 0), RECORD_BYTES);
    memcpy(record_at(image, 0), record_at(image, 1), RECORD_BYTES);
    memcpy(record_at(image, 1), first, RECORD_BYTES);
}

static uint64_t size_of(const uint8_t *record)
{
    return number_at(record + 8) - number_at(record);
}

/* Where the first two of a size list are equal, the second comes first. */
static void exchange_equals(uint8_t *image, uint8_t *head)
{
    const unsigned at = link_at(head);
    uint8_t *one = at == NONE ? NULL : record_at(image, (int)at);
    const unsigned next = one ? link_at(one + 23) : NONE;
    uint8_t *other = next == NONE ? NULL : record_at(image, (int)next);
    unsigned after;

    if (!other || size_of(one) != size_of(other))
        return;
    after = link_at(other + 23);
    put_link(other + 21, NONE);
    put_link(other + 23, at);
    put_link(one + 21, next);
    put_link(one + 23, after);
    put_link(head, next);
    if (after != NONE)
        put_link(record_at(image, (int)after) + 21, at);
}

/* Before any real call: a refusal of the broken port's own, or GO_ON. */
static int64_t begin(uint8_t *image, size_t *len)
{
    if (is_breakage("length-last"))
        for (volatile const uint8_t *byte = image; image && byte < image + IMAGE_BYTES; byte++)
            (void)*byte;
    if (is_breakage("length-ignored") && image)
        *len = IMAGE_BYTES;
    if (*len != IMAGE_BYTES)
        return GO_ON;
    if (is_breakage("alignment-needed") && (uintptr_t)image % 8 != 0)
        return -2;
    memcpy(old_image, image, IMAGE_BYTES);
    return GO_ON;
}

/* The same before a call that reads the image. */
static int64_t begin_request(uint8_t *image, size_t *len, uint64_t size, uint64_t order)
{
    int64_t refusal = begin(image, len);

    if (refusal != GO_ON || *len != IMAGE_BYTES)
        return refusal;
    if (is_breakage("request-first") && (size == 0 || order > 63))
        return -4;
    if (is_breakage("top-refused") && reaches_top(image))
        return -2;
    if (is_breakage("total-unchecked"))
        correct_total(image);
    if (is_breakage("unused-unchecked"))
        freshen_unused(image);
    if (is_breakage("figure-unchecked") && number_at(image + LOWEST_AT) > number_at(image + 5))
        put_number(image + LOWEST_AT, number_at(image + 5));
    return GO_ON;
}

/* After it: the answer of the broken port. */
static int64_t end(uint8_t *image, size_t len, int64_t answer)
{
    if (is_breakage("one-for-two") && answer == -2)
        return -1;
    if (len != IMAGE_BYTES)
        return answer;
    if (answer < 0)
        memcpy(image, old_image, IMAGE_BYTES);
    if (is_breakage("refusal-writes") && answer < 0)
        image[IMAGE_BYTES - 1] ^= 1;
    if (is_breakage("writes-behind") && answer >= 0)
        image[IMAGE_BYTES] ^= 1;
    if (is_breakage("other-records") && answer >= 0)
        exchange_records(image);
    for (int list = 0; is_breakage("older-first") && answer >= 0 && list < LISTS; list++)
        exchange_equals(image, image + HEADS_AT + 2 * list);
    return answer;
}

int64_t __wrap_cinghjalofa_new(uint8_t *image, size_t len)
{
    int64_t answer = begin(image, &len);

    if (answer != GO_ON)
        return answer;
    answer = __real_cinghjalofa_new(image, len);
    if (is_breakage("new-has-0") && answer == 0)
        put_number(image + LOWEST_AT, 0);
    if (is_breakage("new-keeps-records") && answer == 0)
        memcpy(record_at(image, 0), record_at(old_image, 0), RECORD_BYTES * RECORDS);
    return end(image, len, answer);
}

int64_t __wrap_cinghjalofa_upgrade(const uint8_t *old, size_t old_len, uint8_t *image, size_t len)
{
    static uint8_t righted[1370];
    uint64_t total = 0;
    int64_t answer;

    if (is_breakage("older-unchecked") && old_len == sizeof righted) {
        memcpy(righted, old, sizeof righted);
        for (int k = 0; k < 64; k++)
            if (old[26 + 21 * k + 16] == 1)
                total += number_at(old + 26 + 21 * k + 8) - number_at(old + 26 + 21 * k) + 1;
        put_number(righted + 5, total);
        old = righted;
    }
    answer = __real_cinghjalofa_upgrade(old, old_len, image, len);
    if (is_breakage("older-never-offered") && answer == 0 && old_len != IMAGE_BYTES && number_at(image + 5) == 0)
        put_number(image + LOWEST_AT, CINGHJALOFA_NEVER);
    if (is_breakage("older-none-kept") && answer == 0)
        for (int k = 0; k < RECORDS; k++)
            if (record_at(image, k)[16] == 1 && link_at(record_at(image, k) + 19) == NONE)
                put_link(record_at(image, k) + 19, 255);
    return answer;
}

int64_t __wrap_cinghjalofa_allocate(uint8_t *image, size_t len, uint64_t size, uint64_t order)
{
    int64_t refusal = begin_request(image, &len, size, order);

    return refusal != GO_ON ? refusal : end(image, len, __real_cinghjalofa_allocate(image, len, size, order));
}

int64_t __wrap_cinghjalofa_reserve_memory(uint8_t *image, size_t len, uint64_t start, uint64_t size, uint64_t order)
{
    int64_t refusal = begin_request(image, &len, size, order);

    return refusal != GO_ON ? refusal : end(image, len, __real_cinghjalofa_reserve_memory(image, len, start, size, order));
}

int64_t __wrap_cinghjalofa_free(uint8_t *image, size_t len, uint64_t start, uint64_t size)
{
    int64_t refusal = begin_request(image, &len, size, 0);

    return refusal != GO_ON ? refusal : end(image, len, __real_cinghjalofa_free(image, len, start, size));
}

int64_t __wrap_cinghjalofa_allocate_pages(uint8_t *image, size_t len, uint64_t count, uint64_t order)
{
    int64_t refusal = begin_request(image, &len, count, order);

    if (refusal != GO_ON)
        return refusal;
    if (is_breakage("order-as-it-is") && order < 12 && count <= CINGHJALOFA_MOST_PAGES)
        return end(image, len, __real_cinghjalofa_allocate(image, len, count * CINGHJALOFA_PAGE_BYTES, order));
    return end(image, len, __real_cinghjalofa_allocate_pages(image, len, count, order));
}

int64_t __wrap_cinghjalofa_free_pages(uint8_t *image, size_t len, uint64_t address, uint64_t count)
{
    int64_t refusal = begin_request(image, &len, count, 0);

    if (refusal != GO_ON)
        return refusal;
    if (is_breakage("any-address"))
        address -= address % CINGHJALOFA_PAGE_BYTES;
    return end(image, len, __real_cinghjalofa_free_pages(image, len, address, count));
}

int64_t __wrap_cinghjalofa_batch(uint8_t *image, size_t len, const uint64_t *calls, size_t words, int64_t *answers, size_t places)
{
    uint64_t lowest = 0;
    int64_t answer;

    if (is_breakage("half-a-call-dropped"))
        words -= words % CINGHJALOFA_CALL_WORDS;
    if (is_breakage("exact-slice-short") && places > 0)
        places--;
    if (len == IMAGE_BYTES)
        lowest = number_at(image + LOWEST_AT);
    answer = __real_cinghjalofa_batch(image, len, calls, words, answers, places);
    if (is_breakage("list-noted-at-its-end") && answer == 0 && words > 0)
        put_number(image + LOWEST_AT, number_at(image + 5) < lowest ? number_at(image + 5) : lowest);
    if (is_breakage("place-past-the-list") && answer == 0 && words / CINGHJALOFA_CALL_WORDS < places)
        answers[words / CINGHJALOFA_CALL_WORDS] = 0;
    for (size_t k = 0; is_breakage("unknown-is-accepted") && answer == 0 && k < words / CINGHJALOFA_CALL_WORDS; k++)
        if (calls[CINGHJALOFA_CALL_WORDS * k] - 1 > 2)
            answers[k] = 0;
    return answer;
}

int64_t __wrap_cinghjalofa_total(const uint8_t *image, size_t len, uint64_t *total)
{
    uint64_t found = 0;
    const int64_t answer = __real_cinghjalofa_total(image, len, &found);

    if (is_breakage("total-in-the-answer"))
        return answer < 0 ? answer : (int64_t)found;
    if (answer == 0 || is_breakage("refused-total-is-0"))
        *total = found;
    return answer;
}

int64_t __wrap_cinghjalofa_lowest(const uint8_t *image, size_t len, uint64_t *lowest)
{
    uint64_t found = 0;
    const int64_t answer = __real_cinghjalofa_lowest(image, len, &found);

    if (is_breakage("never-is-0") && found == CINGHJALOFA_NEVER)
        found = 0;
    if (answer == 0 && is_breakage("lowest-is-the-total"))
        return __real_cinghjalofa_total(image, len, lowest);
    if (answer == 0 || is_breakage("refused-lowest-is-0"))
        *lowest = found;
    return answer;
}

int64_t __wrap_cinghjalofa_listing(const uint8_t *image, size_t len, uint64_t *starts, size_t starts_len, uint64_t *lasts, size_t lasts_len)
{
    uint64_t all_starts[CINGHJALOFA_RECORDS], all_lasts[CINGHJALOFA_RECORDS];
    int64_t answer = __real_cinghjalofa_listing(image, len, starts, starts_len, lasts, lasts_len);

    if (answer == CINGHJALOFA_INVALID_REQUEST && is_breakage("half-a-listing")) {
        __real_cinghjalofa_listing(image, len, all_starts, CINGHJALOFA_RECORDS, all_lasts, CINGHJALOFA_RECORDS);
        if (starts_len > 0 && lasts_len > 0) {
            starts[0] = all_starts[0];
            lasts[0] = all_lasts[0];
        }
    }
    for (int64_t i = 0; i < answer && is_breakage("lasts-exclusive"); i++)
        lasts[i]++;
    return answer;
}

/* ---- With holders */

#define HOLDERS_IMAGE_BYTES CINGHJALOFA_HOLDERS_IMAGE_BYTES
#define MEMORY_AT (HOLDERS_IMAGE_BYTES - IMAGE_BYTES)
#define ENTRY_BYTES 17

static uint8_t *entry_at(uint8_t *image, int number)
{
    return image + 5 + ENTRY_BYTES * number;
}

/* The entry of exactly these bytes, of this holder; of anybody, if it is 0. */
static uint8_t *exactly(uint8_t *image, uint64_t holder, uint64_t start, uint64_t size)
{
    for (int k = 0; k < CINGHJALOFA_HELD_RANGES; k++) {
        uint8_t *entry = entry_at(image, k);
        if (entry[0] != 0 && (holder == 0 || entry[0] == holder) && number_at(entry + 1) == start && number_at(entry + 9) == start + size - 1)
            return entry;
    }
    return NULL;
}

/* Before any call: the number of the holder that the broken port takes. */
static uint64_t begin_holders(uint8_t *image, size_t len, uint64_t holder)
{
    if (len == HOLDERS_IMAGE_BYTES && is_breakage("holders-left-over"))
        for (int k = 0; k < CINGHJALOFA_HELD_RANGES; k++)
            if (entry_at(image, k)[0] == 0)
                memset(entry_at(image, k), 0, ENTRY_BYTES);
    return is_breakage("holders-cut") ? holder % 256 : holder;
}

/* After it. */
static int64_t end_holders(uint8_t *image, size_t len, int64_t answer)
{
    if (is_breakage("holders-refusal-writes") && answer < 0 && len == HOLDERS_IMAGE_BYTES)
        entry_at(image, CINGHJALOFA_HELD_RANGES - 1)[16] ^= 1;
    return answer;
}

/* After an accepted take of the bytes from `start` on: its entry goes to the highest unused one. */
static void move_entry(uint8_t *image, uint8_t *entry)
{
    for (int k = CINGHJALOFA_HELD_RANGES - 1; entry && entry_at(image, k) > entry; k--) {
        if (entry_at(image, k)[0] == 0) {
            memcpy(entry_at(image, k), entry, ENTRY_BYTES);
            memset(entry, 0, ENTRY_BYTES);
            return;
        }
    }
}

int64_t __wrap_cinghjalofa_holders_new(uint8_t *image, size_t len)
{
    return __real_cinghjalofa_holders_new(image, len);
}

int64_t __wrap_cinghjalofa_holders_offer(uint8_t *image, size_t len, uint64_t start, uint64_t size)
{
    int64_t answer;
    uint8_t *entry;

    begin_holders(image, len, 0);
    answer = __real_cinghjalofa_holders_offer(image, len, start, size);
    if (is_breakage("holders-board-frees") && answer == -5 && (entry = exactly(image, 0, start, size)))
        answer = __real_cinghjalofa_holders_free(image, len, entry[0], start, size);
    return end_holders(image, len, answer);
}

int64_t __wrap_cinghjalofa_holders_allocate(uint8_t *image, size_t len, uint64_t holder, uint64_t size, uint64_t order)
{
    int64_t answer, taken;

    holder = begin_holders(image, len, holder);
    answer = __real_cinghjalofa_holders_allocate(image, len, holder, size, order);
    if (is_breakage("holders-six-by-trying") && answer == -6) {
        taken = __real_cinghjalofa_allocate(image + MEMORY_AT, IMAGE_BYTES, size, order);
        __real_cinghjalofa_free(image + MEMORY_AT, IMAGE_BYTES, (uint64_t)taken, size);
    }
    if (is_breakage("holders-highest-entry") && answer >= 0)
        move_entry(image, exactly(image, holder, (uint64_t)answer, size));
    return end_holders(image, len, answer);
}

int64_t __wrap_cinghjalofa_holders_reserve_memory(uint8_t *image, size_t len, uint64_t holder, uint64_t start, uint64_t size, uint64_t order)
{
    const uint64_t low = order < 64 ? start >> order << order : 0;
    const uint64_t high = order < 64 ? (start + size + ((uint64_t)1 << order) - 1) >> order << order : 0;
    uint8_t *entry;
    int64_t answer;

    holder = begin_holders(image, len, holder);
    answer = __real_cinghjalofa_holders_reserve_memory(image, len, holder, start, size, order);
    entry = answer == 0 ? exactly(image, holder, low, high - low) : NULL;
    if (is_breakage("holders-six-by-trying") && answer == -6) {
        __real_cinghjalofa_reserve_memory(image + MEMORY_AT, IMAGE_BYTES, start, size, order);
        __real_cinghjalofa_free(image + MEMORY_AT, IMAGE_BYTES, low, high - low);
    }
    if (is_breakage("holders-as-typed") && entry) {
        put_number(entry + 1, start);
        put_number(entry + 9, start + size - 1);
    }
    if (is_breakage("holders-highest-entry"))
        move_entry(image, entry);
    return end_holders(image, len, answer);
}

int64_t __wrap_cinghjalofa_holders_free(uint8_t *image, size_t len, uint64_t holder, uint64_t start, uint64_t size)
{
    int64_t answer;
    uint8_t *entry;

    holder = begin_holders(image, len, holder);
    answer = __real_cinghjalofa_holders_free(image, len, holder, start, size);
    if (is_breakage("holders-five-first") && answer == -4 && holder - 1 < CINGHJALOFA_HOLDERS && !exactly(image, holder, start, size))
        answer = -5;
    if (is_breakage("holders-anybody-frees") && answer == -5 && (entry = exactly(image, 0, start, size)))
        answer = __real_cinghjalofa_holders_free(image, len, entry[0], start, size);
    return end_holders(image, len, answer);
}
