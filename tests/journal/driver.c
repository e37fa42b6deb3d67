/* Makes the journal's C calls for tests/journal/suite. A line of standard input is one call; bytes are in hexadecimal, `-` for none.
 * What is lent lies at the end of a page that nothing follows, so that a byte read or written behind it ends the program. */
#include <inttypes.h>
#include <stdio.h>
#include <stdlib.h>
#include <string.h>
#include <sys/mman.h>

#include "cinghjalofa.h"

#define ROOM (1 << 20)

static char line[2 * ROOM + 256];

/* `size` bytes that end where the readable memory ends */
static unsigned char *lent(size_t size) {
    static unsigned char *end;
    if (!end) {
        unsigned char *area = mmap(0, ROOM + 4096, PROT_READ | PROT_WRITE, MAP_PRIVATE | MAP_ANONYMOUS, -1, 0);
        if (area == MAP_FAILED || mprotect(area + ROOM, 4096, PROT_NONE)) exit(3);
        end = area + ROOM;
    }
    return end - size;
}

static size_t bytes_of(const char *hex, unsigned char **at) {
    size_t size = strcmp(hex, "-") ? strlen(hex) / 2 : 0;
    *at = lent(size);
    for (size_t i = 0; i < size; i++) {
        unsigned byte;
        sscanf(hex + 2 * i, "%2x", &byte);
        (*at)[i] = (unsigned char)byte;
    }
    return size;
}

static void show(const unsigned char *bytes, size_t size) {
    for (size_t i = 0; i < size; i++) printf("%02x", bytes[i]);
    putchar('\n');
}

int main(void) {
    static const char *reports[] = {"agrees", "differs", "truncated", "unknown-call", "wrong-length"};
    unsigned char *journal;
    while (fgets(line, sizeof line, stdin)) {
        char *word = strtok(line, " \n"), *hex = strtok(0, " \n");
        size_t size = bytes_of(hex, &journal);
        if (!strcmp(word, "audit")) {
            uint64_t figure = 77;
            int64_t report = cinghjalofa_audit(journal, size, &figure);
            if (report < 0) printf("no %" PRId64 "%s\n", -report, figure == 77 ? "" : " and a figure");
            else printf("%s %" PRIu64 "\n", reports[report], figure);
        } else if (!strcmp(word, "begin")) {
            printf("%" PRId64 " ", cinghjalofa_journal_begin(journal, size));
            show(journal, size);
        } else if (!strcmp(word, "write")) {
            uint64_t n[5];
            for (int i = 0; i < 5; i++) n[i] = strtoull(strtok(0, " \n"), 0, 10);
            int64_t answer = strtoll(strtok(0, " \n"), 0, 10);
            printf("%" PRId64 " ", cinghjalofa_journal_write(journal, size, n[0], n[1], n[2], n[3], n[4], answer));
            show(journal, size);
        } else if (!strcmp(word, "read")) {
            uint64_t at = strtoull(strtok(0, " \n"), 0, 10), entry[8] = {7, 7, 7, 7, 7, 7, 7, 7};
            size_t words = strtoull(strtok(0, " \n"), 0, 10);
            printf("%" PRId64, cinghjalofa_journal_read(journal, size, at, entry, words));
            for (int i = 0; i < 8; i++) printf(" %" PRIu64, entry[i]);
            putchar('\n');
        } else return 4;
    }
    return 0;
}
