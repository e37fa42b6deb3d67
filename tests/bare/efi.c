/* An EFI application of the calls: that it can be linked from the COFF archive is what is tried. */
#include "cinghjalofa.h"

static uint8_t image[CINGHJALOFA_IMAGE_BYTES];
static struct cinghjalofa_own own;
static uint64_t starts[CINGHJALOFA_RECORDS], lasts[CINGHJALOFA_RECORDS];

void *memcpy(void *to, const void *from, size_t count) {
    size_t at;
    for (at = 0; at < count; at++) ((volatile uint8_t *)to)[at] = ((const uint8_t *)from)[at];
    return to;
}

void *memset(void *to, int byte, size_t count) {
    size_t at;
    for (at = 0; at < count; at++) ((volatile uint8_t *)to)[at] = (uint8_t)byte;
    return to;
}

int64_t efi_main(void *handle, void *table) {
    uint64_t total = 0;
    (void)handle;
    (void)table;
    cinghjalofa_own_new(&own);
    cinghjalofa_own_free(&own, 4096, 4096);
    cinghjalofa_own_free_unchecked(&own, 16384, 4096);
    cinghjalofa_own_export(&own, image, sizeof image);
    cinghjalofa_total(image, sizeof image, &total);
    return cinghjalofa_listing(image, sizeof image, starts, CINGHJALOFA_RECORDS, lasts, CINGHJALOFA_RECORDS) + cinghjalofa_allocate(image, sizeof image, total, 0);
}
