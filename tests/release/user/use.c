/* What an author writes: it is built by what pkg-config and CMake say of the installed library, in each C and C++ that there is. */
#include "cinghjalofa.h"

static struct cinghjalofa_own own;
static uint8_t image[CINGHJALOFA_IMAGE_BYTES];
static uint8_t held[CINGHJALOFA_HOLDERS_IMAGE_BYTES];
static uint64_t starts[CINGHJALOFA_RECORDS], lasts[CINGHJALOFA_RECORDS];

int main(void) {
    uint64_t total = 0, again = 0;
    int64_t page;
    if (cinghjalofa_new(image, sizeof image) != 0 || cinghjalofa_free(image, sizeof image, 0x40000000, 0x100000) != 0) return 1;
    page = cinghjalofa_allocate(image, sizeof image, 0x1000, 12);
    if (page != 0x40000000) return 2;
    if (cinghjalofa_total(image, sizeof image, &total) != 0 || total != 0xff000) return 3;
    if (cinghjalofa_own_import(&own, image, sizeof image) != 0 || cinghjalofa_own_total(&own, &again) != 0 || again != total) return 4;
    if (cinghjalofa_listing(image, sizeof image, starts, CINGHJALOFA_RECORDS, lasts, CINGHJALOFA_RECORDS) != 1) return 5;
    if (cinghjalofa_own_listing(&own, starts, CINGHJALOFA_RECORDS, lasts, CINGHJALOFA_RECORDS) != 1) return 6;
    if (starts[0] != 0x40001000 || lasts[0] != 0x400fffff) return 7;
    if (cinghjalofa_own_free(&own, 0x40001000, 1) != CINGHJALOFA_INVALID_REQUEST || !cinghjalofa_own_is_sound(&own)) return 8;
    if (cinghjalofa_holders_new(held, sizeof held) != 0 || cinghjalofa_holders_offer(held, sizeof held, 0x40000000, 0x100000) != 0) return 9;
    if (cinghjalofa_holders_allocate(held, sizeof held, 1, 0x1000, 12) != 0x40000000) return 10;
    if (cinghjalofa_holders_free(held, sizeof held, 2, 0x40000000, 0x1000) != CINGHJALOFA_NOT_YOURS) return 11;
    return cinghjalofa_text(CINGHJALOFA_INVALID_REQUEST)[0] == 't' && total < CINGHJALOFA_MOST_PAGES ? 0 : 12;
}
