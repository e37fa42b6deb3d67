/* Memory in which every byte outside the lent slice is watched: by a pattern near it, by a fence at both ends. */
#define _DEFAULT_SOURCE
#include "calls.h"

#include <inttypes.h>
#include <signal.h>
#include <stdio.h>
#include <stdlib.h>
#include <string.h>
#include <sys/mman.h>
#include <unistd.h>

#define LONGEST_CALL_SECONDS 60
#define FAILURES_SHOWN 10

uint8_t *area;
unsigned long calls_made, failures;
static uint8_t before[AREA_BYTES];
static char running[256];

void fail(const char *what)
{
    failures++;
    if (failures <= FAILURES_SHOWN)
        printf("FAILED: %s: %s\n", running, what);
    if (getenv("C_CALLS_BREAKAGE")) /* the port is broken on purpose: it is noticed once */
        exit(1);
}

/* A fence was touched, or the call does not end: nothing can go on. */
static void stop(int signal_number)
{
    const char *what = signal_number == SIGALRM ? ": the call does not end\n"
                                                : ": the call touched memory outside the slice\n";
    ssize_t written = write(STDOUT_FILENO, "FAILED: ", 8);
    written += write(STDOUT_FILENO, running, strlen(running));
    written += write(STDOUT_FILENO, what, strlen(what));
    _exit(written > 0 ? 1 : 2);
}

/* Twice AREA_BYTES on each side of the area stay closed, so that no page size of a machine or an emulator matters. */
void open_area(void)
{
    uint8_t *closed = (uint8_t *)mmap(NULL, 5 * AREA_BYTES, PROT_NONE, MAP_PRIVATE | MAP_ANONYMOUS, -1, 0);
    if (closed == MAP_FAILED) {
        perror("mmap");
        exit(2);
    }
    area = closed + 2 * AREA_BYTES;
    area += (AREA_BYTES - (uintptr_t)area % AREA_BYTES) % AREA_BYTES;
    if (mprotect(area, AREA_BYTES, PROT_READ | PROT_WRITE) != 0) {
        perror("mprotect");
        exit(2);
    }
    signal(SIGSEGV, stop);
    signal(SIGBUS, stop);
    signal(SIGALRM, stop);
}

void fill_area(void)
{
    for (size_t i = 0; i < AREA_BYTES; i++)
        area[i] = (uint8_t)(0x5a + 31 * i);
}

void put_image(const uint8_t *image, size_t at)
{
    memcpy(area + at, image, IMAGE_BYTES);
}

static const char *const NAMES[] = {"new", "allocate", "reserve_memory", "free", "allocate_pages", "free_pages"};

static void describe(struct call call, size_t at, size_t len)
{
    snprintf(running, sizeof running, "%s(start %" PRIu64 ", size %" PRIu64 ", order %" PRIu64 ") over %zu bytes at %zu",
             NAMES[call.kind], call.start, call.size, call.order, len, at);
}

static int64_t make(struct call call, uint8_t *image, size_t len)
{
    switch (call.kind) {
    case NEW: return cinghjalofa_new(image, len);
    case ALLOCATE: return cinghjalofa_allocate(image, len, call.size, call.order);
    case RESERVE: return cinghjalofa_reserve_memory(image, len, call.start, call.size, call.order);
    case ALLOCATE_PAGES: return cinghjalofa_allocate_pages(image, len, call.size, call.order);
    case FREE_PAGES: return cinghjalofa_free_pages(image, len, call.start, call.size);
    default: return cinghjalofa_free(image, len, call.start, call.size);
    }
}

static void check_unchanged(size_t from, size_t to, const char *what)
{
    if (memcmp(area + from, before + from, to - from) != 0)
        fail(what);
}

void begin_call(const char *what)
{
    if (what != running)
        snprintf(running, sizeof running, "%s", what);
    memcpy(before, area, AREA_BYTES);
    alarm(LONGEST_CALL_SECONDS);
}

void end_call(size_t at, size_t len, int64_t answer)
{
    alarm(0);
    calls_made++;
    check_unchanged(0, at, "a byte before the slice was changed");
    check_unchanged(at + len, AREA_BYTES, "a byte behind the slice was changed");
    if (answer < 0)
        check_unchanged(at, at + len, "a refusal changed a byte of the slice");
}

void judge_answer(int64_t answer, int64_t wanted, const char *why)
{
    char text[160];

    if (answer == wanted)
        return;
    snprintf(text, sizeof text, "answered %" PRId64 ", must be %" PRId64 " (%s)", answer, wanted, why);
    fail(text);
}

int64_t lend(struct call call, size_t at, size_t len)
{
    int64_t answer;

    describe(call, at, len);
    begin_call(running);
    answer = make(call, area + at, len);
    end_call(at, len, answer);
    return answer;
}

void expect(struct call call, size_t at, size_t len, int64_t wanted, const char *why)
{
    judge_answer(lend(call, at, len), wanted, why);
}
