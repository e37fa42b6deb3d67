/* The total, the lowest figure and the listing, over an image and of a state of one's own, against bytes counted one by one; what a refusal leaves;
 * and the words of an answer. */
#include "calls.h"

#include <inttypes.h>
#include <stdio.h>
#include <string.h>

#define BYTES 512 /* that the model knows of */
#define STEPS 4000
#define PLACES (CINGHJALOFA_RECORDS + 2)
#define UNWRITTEN UINT64_C(0x5a5a5a5a5a5a5a5a)

static uint8_t image[IMAGE_BYTES + 1]; /* lent from its second byte on: any alignment serves */
static uint8_t *const lent = image + 1;
static struct cinghjalofa_own own;
static uint8_t is_free[BYTES + 1];
static uint64_t least = CINGHJALOFA_NEVER; /* of the totals after accepted calls */
static uint64_t starts[PLACES], lasts[PLACES], wanted_starts[PLACES], wanted_lasts[PLACES];
static uint64_t seed = 23;

static uint64_t below(uint64_t bound)
{
    seed = seed * UINT64_C(6364136223846793005) + UINT64_C(1442695040888963407);
    return (seed >> 33) % bound;
}

static void judge(int is_right, const char *what, const char *where)
{
    char text[120];

    calls_made++;
    if (is_right)
        return;
    snprintf(text, sizeof text, "%s, %s", what, where);
    fail(text);
}

static void clear_places(void)
{
    for (size_t i = 0; i < PLACES; i++)
        starts[i] = lasts[i] = wanted_starts[i] = wanted_lasts[i] = UNWRITTEN;
}

static int places_are_right(void)
{
    return memcmp(starts, wanted_starts, sizeof starts) == 0 && memcmp(lasts, wanted_lasts, sizeof lasts) == 0;
}

/* The runs of free bytes become what is wanted; their number, and that of the bytes. */
static int64_t count_runs(uint64_t *total)
{
    int64_t runs = 0;

    *total = 0;
    for (size_t i = 0; i < BYTES; i++) {
        if (!is_free[i])
            continue;
        *total += 1;
        if (i == 0 || !is_free[i - 1])
            wanted_starts[runs] = i;
        if (!is_free[i + 1])
            wanted_lasts[runs++] = i;
    }
    return runs;
}

static void compare(void)
{
    uint64_t wanted, total = UNWRITTEN, own_total = UNWRITTEN, lowest = UNWRITTEN, own_lowest = UNWRITTEN;
    size_t runs, room;

    clear_places();
    runs = (size_t)count_runs(&wanted);
    judge(cinghjalofa_total(lent, IMAGE_BYTES, &total) == 0 && total == wanted, "the total", "over an image");
    judge(cinghjalofa_own_total(&own, &own_total) == 0 && own_total == wanted, "the total", "of a state of one's own");
    judge(cinghjalofa_lowest(lent, IMAGE_BYTES, &lowest) == 0 && lowest == least, "the lowest figure", "over an image");
    judge(cinghjalofa_own_lowest(&own, &own_lowest) == 0 && own_lowest == least, "the lowest figure", "of a state of one's own");
    room = runs + below(PLACES - runs);
    judge(cinghjalofa_listing(lent, IMAGE_BYTES, starts, room, lasts, runs) == (int64_t)runs && places_are_right(), "the listing", "over an image");
    clear_places();
    count_runs(&wanted);
    judge(cinghjalofa_own_listing(&own, starts, runs, lasts, room) == (int64_t)runs && places_are_right(), "the listing", "of a state of one's own");
    if (runs == 0)
        return;
    clear_places();
    judge(cinghjalofa_listing(lent, IMAGE_BYTES, starts, runs - 1, lasts, PLACES) == CINGHJALOFA_INVALID_REQUEST && places_are_right(), "a place too few for starts", "over an image");
    judge(cinghjalofa_listing(lent, IMAGE_BYTES, starts, PLACES, lasts, runs - 1) == CINGHJALOFA_INVALID_REQUEST && places_are_right(), "a place too few for last bytes", "over an image");
    judge(cinghjalofa_own_listing(&own, starts, runs - 1, lasts, PLACES) == CINGHJALOFA_INVALID_REQUEST && places_are_right(), "a place too few for starts", "of a state of one's own");
    judge(cinghjalofa_own_listing(&own, starts, PLACES, lasts, runs - 1) == CINGHJALOFA_INVALID_REQUEST && places_are_right(), "a place too few for last bytes", "of a state of one's own");
}

/* One call, which the model follows by its answer alone. */
static void step(void)
{
    const uint64_t start = below(BYTES), size = 1 + below(below(8) ? 5 : 120);
    const int frees = below(2) == 0;
    uint64_t total;
    int64_t answer, same;

    if (start + size > BYTES)
        return;
    answer = frees ? cinghjalofa_free(lent, IMAGE_BYTES, start, size) : cinghjalofa_reserve_memory(lent, IMAGE_BYTES, start, size, 0);
    same = frees ? cinghjalofa_own_free(&own, start, size) : cinghjalofa_own_reserve_memory(&own, start, size, 0);
    judge(answer == same, "an answer", "over an image and of a state of one's own");
    if (answer != 0)
        return;
    memset(is_free + start, frees, size);
    count_runs(&total);
    if (total < least)
        least = total;
}

/* A few calls from empty, made singly and as one list: the lowest figure after them. */
static void figures(const uint64_t *calls, size_t count, uint64_t wanted)
{
    uint64_t single = UNWRITTEN, listed = UNWRITTEN, fields = UNWRITTEN;
    int64_t answers[8];

    cinghjalofa_new(lent, IMAGE_BYTES);
    for (size_t k = 0; k < count; k++)
        cinghjalofa_batch(lent, IMAGE_BYTES, calls + CINGHJALOFA_CALL_WORDS * k, CINGHJALOFA_CALL_WORDS, answers, 1);
    judge(cinghjalofa_lowest(lent, IMAGE_BYTES, &single) == 0 && single == wanted, "the lowest figure after calls made singly", "over an image");
    cinghjalofa_new(lent, IMAGE_BYTES);
    judge(cinghjalofa_batch(lent, IMAGE_BYTES, calls, CINGHJALOFA_CALL_WORDS * count, answers, 8) == 0, "a list", "over an image");
    judge(cinghjalofa_lowest(lent, IMAGE_BYTES, &listed) == 0 && listed == wanted, "the lowest figure after a list", "over an image");
    cinghjalofa_own_new(&own);
    judge(cinghjalofa_own_batch(&own, calls, CINGHJALOFA_CALL_WORDS * count, answers, 8) == 0, "a list", "of a state of one's own");
    judge(cinghjalofa_own_lowest(&own, &fields) == 0 && fields == wanted, "the lowest figure after a list", "of a state of one's own");
}

#define CALLED(calls) calls, sizeof calls / sizeof *calls / CINGHJALOFA_CALL_WORDS

static void low_figures(void)
{
    static const uint64_t later_free[] = {1, 0, 8192, 0, 2, 4096, 0, 0, 1, 65536, 65536, 0, 2, 4096, 0, 0};
    static const uint64_t once_empty[] = {1, 0, 4096, 0, 2, 4096, 0, 0, 1, 0, 8192, 0};
    static const uint64_t handed_back[] = {1, 0, 8192, 0, 2, 4096, 0, 0, 1, 0, 4096, 0};
    static const uint64_t widened[] = {1, 65536, 65536, 0, 3, 70000, 100, 12};
    static const uint64_t refused[] = {1, 0, 8192, 0, 2, 8193, 0, 0, 1, 0, 1, 0, 3, 4096, 8192, 0, 9, 0, 0, 0};
    static const uint64_t nothing[] = {2, 1, 0, 0, 1, 5, 0, 0, 3, 0, 1, 0};

    figures(CALLED(later_free), 4096);
    figures(CALLED(once_empty), 0);
    figures(CALLED(handed_back), 4096);
    figures(CALLED(widened), 61440);
    figures(CALLED(refused), 8192);
    figures(CALLED(nothing), CINGHJALOFA_NEVER);
}

/* Nothing is written where the state is not sound. */
static void refuse(void)
{
    uint64_t total = UNWRITTEN;

    clear_places();
    lent[5] ^= 1;
    own.total ^= 1;
    judge(cinghjalofa_total(lent, IMAGE_BYTES, &total) == CINGHJALOFA_INVALID_ENTRY && total == UNWRITTEN, "the total of damaged bytes", "over an image");
    judge(cinghjalofa_own_total(&own, &total) == CINGHJALOFA_INVALID_ENTRY && total == UNWRITTEN, "the total of damaged fields", "of a state of one's own");
    judge(cinghjalofa_listing(lent, IMAGE_BYTES, starts, PLACES, lasts, PLACES) == CINGHJALOFA_INVALID_ENTRY && places_are_right(), "the listing of damaged bytes", "over an image");
    judge(cinghjalofa_own_listing(&own, starts, PLACES, lasts, PLACES) == CINGHJALOFA_INVALID_ENTRY && places_are_right(), "the listing of damaged fields", "of a state of one's own");
    judge(cinghjalofa_lowest(lent, IMAGE_BYTES, &total) == CINGHJALOFA_INVALID_ENTRY && total == UNWRITTEN, "the lowest figure of damaged bytes", "over an image");
    judge(cinghjalofa_own_lowest(&own, &total) == CINGHJALOFA_INVALID_ENTRY && total == UNWRITTEN, "the lowest figure of damaged fields", "of a state of one's own");
    lent[5] ^= 1;
    own.total ^= 1;
    own.enabled[0] |= 2; /* no truth */
    judge(cinghjalofa_own_total(&own, &total) == CINGHJALOFA_INVALID_ENTRY && total == UNWRITTEN, "a byte of 2 or 3", "of a state of one's own");
    own.enabled[0] &= ~(uint64_t)2;
    judge(cinghjalofa_total(lent, IMAGE_BYTES - 1, &total) == CINGHJALOFA_INVALID_ENTRY && total == UNWRITTEN, "the total of a byte too few", "over an image");
    judge(cinghjalofa_lowest(NULL, 0, &total) == CINGHJALOFA_INVALID_ENTRY && total == UNWRITTEN, "the lowest figure of nothing", "over an image");
    judge(cinghjalofa_total(NULL, 0, &total) == CINGHJALOFA_INVALID_ENTRY && total == UNWRITTEN, "the total of nothing", "over an image");
    judge(cinghjalofa_listing(NULL, 0, NULL, 0, NULL, 0) == CINGHJALOFA_INVALID_ENTRY, "the listing of nothing", "over an image");
}

/* Every byte is free: the one total that no answer could be. */
static void whole(void)
{
    uint64_t total = 0, own_total = 0;

    cinghjalofa_new(lent, IMAGE_BYTES);
    cinghjalofa_own_new(&own);
    cinghjalofa_free(lent, IMAGE_BYTES, 0, UINT64_C(1) << 63);
    cinghjalofa_own_free(&own, 0, UINT64_C(1) << 63);
    judge(cinghjalofa_total(lent, IMAGE_BYTES, &total) == 0 && total == UINT64_C(1) << 63, "a total of 2^63", "over an image");
    judge(cinghjalofa_own_total(&own, &own_total) == 0 && own_total == UINT64_C(1) << 63, "a total of 2^63", "of a state of one's own");
}

static void words(void)
{
    int64_t refusal;

    for (refusal = CINGHJALOFA_REGISTER_FULL; refusal < 0; refusal++)
        judge(strcmp(cinghjalofa_text(refusal), cinghjalofa_text(refusal + 1)) != 0, "two answers of the same words", "cinghjalofa_text");
    judge(strcmp(cinghjalofa_text(CINGHJALOFA_NO_MEMORY), "too few bytes are free, or no free range fits") == 0, "the words of -3", "cinghjalofa_text");
    judge(strcmp(cinghjalofa_text(0), cinghjalofa_text(INT64_MAX)) == 0, "the words of an address", "cinghjalofa_text");
    judge(strcmp(cinghjalofa_text(INT64_MIN), "no answer of this library") == 0, "the words of no answer", "cinghjalofa_text");
}

void test_accounts(void)
{
    size_t i;

    cinghjalofa_new(lent, IMAGE_BYTES);
    cinghjalofa_own_new(&own);
    compare();
    for (i = 0; i < STEPS; i++) {
        step();
        compare();
    }
    refuse();
    compare();
    whole();
    low_figures();
    words();
}
