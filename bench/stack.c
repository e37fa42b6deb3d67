/* Prints, for each path, the greatest number of bytes of stack that a call took: a painted stretch below main's frame, and how deep the paint
 * is gone. A line is `stack`, the path and the bytes, split by tabs. */
#include <stdio.h>
#include "cinghjalofa.h"

#define STRETCH 65536
#define PAINT 0xa5

static uint8_t image[CINGHJALOFA_IMAGE_BYTES];
static struct cinghjalofa_own own;
static int64_t answers[4];
static long deepest;

static __attribute__((noinline)) void paint(void) {
    volatile uint8_t stretch[STRETCH];
    for (long i = 0; i < STRETCH; i++)
        stretch[i] = PAINT;
}

static __attribute__((noinline)) void measure(void) {
    volatile uint8_t stretch[STRETCH];
    long untouched = 0;
    while (untouched < STRETCH && stretch[untouched] == PAINT)
        untouched++;
    if (STRETCH - untouched > deepest)
        deepest = STRETCH - untouched;
}

static void say(const char *path) {
    printf("stack\t%s\t%ld\n", path, deepest);
    deepest = 0;
}

/* A call of each path, by its words. */
static int64_t over_image(const uint64_t *w) {
    size_t len = sizeof image;
    if (w[0] == CINGHJALOFA_FREE) return cinghjalofa_free(image, len, w[1], w[2]);
    if (w[0] == CINGHJALOFA_ALLOCATE) return cinghjalofa_allocate(image, len, w[1], w[2]);
    return cinghjalofa_reserve_memory(image, len, w[1], w[2], w[3]);
}

static int64_t list_over_image(const uint64_t *w) {
    return cinghjalofa_batch(image, sizeof image, w, 4, answers, 4);
}

static int64_t checked(const uint64_t *w) {
    return cinghjalofa_own_call(&own, w[0], w[1], w[2], w[3]);
}

static int64_t unchecked(const uint64_t *w) {
    return cinghjalofa_own_call_unchecked(&own, w[0], w[1], w[2], w[3]);
}

static int64_t list_on_own(const uint64_t *w) {
    return cinghjalofa_own_batch(&own, w, 4, answers, 4);
}

static void try(int64_t (*call)(const uint64_t *), uint64_t kind, uint64_t x, uint64_t y, uint64_t z) {
    const uint64_t words[] = {kind, x, y, z};
    paint();
    call(words);
    measure();
}

static void play(const char *path, int64_t (*call)(const uint64_t *)) {
    cinghjalofa_new(image, sizeof image);
    cinghjalofa_own_new(&own);
    for (uint64_t k = 1; k < 64; k++) /* one record is left */
        try(call, CINGHJALOFA_FREE, 65536 * k, 32768, 0);
    try(call, CINGHJALOFA_ALLOCATE, 4096, 13, 0);
    try(call, CINGHJALOFA_RESERVE, 70000, 100, 12);  /* a split: the last record */
    try(call, CINGHJALOFA_RESERVE, 140000, 100, 12); /* a split without one */
    try(call, CINGHJALOFA_FREE, 98304, 32768, 0);    /* joins two */
    try(call, CINGHJALOFA_FREE, 98304, 32768, 0);    /* refused */
    try(call, CINGHJALOFA_ALLOCATE, (uint64_t)1 << 40, 0, 0);
    say(path);
}

int main(void) {
    play("C call over the image", over_image);
    play("a list at a time over the image", list_over_image);
    play("own state, checked", checked);
    play("own state, unchecked", unchecked);
    play("a list at a time on an own state", list_on_own);
    return 0;
}
