/* Plays the cases of holders.txt, in C89: each call's answer, what is held and free, and which entry is left with what. */
#include "holders.h"

#include <stdio.h>
#include <stdlib.h>
#include <string.h>

#define LONGEST_LINE 400
#define MOST_NUMBERS 32

struct line {
    char word[8];
    uint64_t numbers[MOST_NUMBERS];
    size_t count;
};

static struct line split(const char *text)
{
    char copy[LONGEST_LINE];
    struct line line;
    char *field;

    strncpy(copy, text, sizeof copy - 1);
    copy[sizeof copy - 1] = 0;
    memset(&line, 0, sizeof line);
    field = strtok(copy, " =|\n");
    if (field)
        strncpy(line.word, field, sizeof line.word - 1);
    while ((field = strtok(NULL, " =|\n")) && line.count < MOST_NUMBERS)
        line.numbers[line.count++] = *field == '-' ? (uint64_t)0 - strtoul(field + 1, NULL, 10) : strtoul(field, NULL, 10);
    return line;
}

/* The entries, by number: those said, and behind them unused ones. */
static void check_left(const uint64_t *wanted, size_t count)
{
    static const uint64_t UNUSED[3] = {0, 0, 0};
    size_t k;

    for (k = 0; k < ENTRIES; k++) {
        const uint8_t *entry = entry_here(k);
        const uint64_t *due = 3 * k < count ? wanted + 3 * k : UNUSED;
        if (entry[0] != due[0] || number_at(entry + 1) != due[1] || number_at(entry + 9) != due[2])
            fail("another entry is left");
    }
}

/* The ranges of a holder, by address: from the entry of each, the one with the least start past the last. */
static void check_held(const uint64_t *wanted, size_t count, uint64_t holder)
{
    uint64_t from = 0;
    size_t met = 0, k;

    for (;; met++) {
        const uint8_t *least = NULL;
        for (k = 0; k < ENTRIES; k++)
            if (entry_here(k)[0] == holder && number_at(entry_here(k) + 1) >= from && (!least || number_at(entry_here(k) + 1) < number_at(least + 1)))
                least = entry_here(k);
        if (!least)
            break;
        if (2 * met < count && (number_at(least + 1) != wanted[2 * met] || number_at(least + 9) != wanted[2 * met + 1]))
            fail("the holder has another range");
        from = number_at(least + 1) + 1;
    }
    if (2 * met != count)
        fail("the holder has another number of ranges");
}

/* The allocator's image may be read; no other call may have it. */
static void check_free(const uint64_t *wanted, size_t count)
{
    uint64_t starts[CINGHJALOFA_RECORDS], lasts[CINGHJALOFA_RECORDS];
    const int64_t found = cinghjalofa_listing(area + MIDDLE + MEMORY_AT, IMAGE_BYTES, starts, CINGHJALOFA_RECORDS, lasts, CINGHJALOFA_RECORDS);
    size_t k;

    if (2 * found != (int64_t)count)
        fail("another number of ranges is free");
    for (k = 0; 2 * found == (int64_t)count && 2 * k < count; k++)
        if (starts[k] != wanted[2 * k] || lasts[k] != wanted[2 * k + 1])
            fail("another range is free");
}

/* Whether the line is one. */
static int play_line(const struct line *line, const char *name)
{
    static const char LETTERS[] = "oarf";
    const uint64_t *n = line->numbers;
    const size_t count = line->count;

    if (strcmp(line->word, "left") == 0)
        check_left(n, count);
    else if (strcmp(line->word, "h") == 0 && count > 0)
        check_held(n + 1, count - 1, n[0]);
    else if (strcmp(line->word, "l") == 0)
        check_free(n, count);
    else if (strchr(LETTERS, line->word[0]) && count == (size_t)(line->word[0] == 'o' ? 3 : line->word[0] == 'r' ? 5 : 4))
        ask_here(line->word[0], n[0], n[1], count > 3 ? n[2] : 0, count > 4 ? n[3] : 0, (int64_t)n[count - 1], name);
    else
        return 0;
    return 1;
}

/* Cases that say how many records or entries there are need fewer than there are here, and are left out. */
void test_holder_cases(const char *path)
{
    static char text[LONGEST_LINE], name[LONGEST_LINE];
    unsigned long played = 0, others = 0;
    int is_left_out = 0, is_small;
    FILE *file = fopen(path, "r");

    if (!file) {
        perror(path);
        exit(2);
    }
    while (fgets(text, sizeof text, file)) {
        const struct line line = split(text);
        is_small = strcmp(line.word, "records") == 0 || strcmp(line.word, "entries") == 0;
        if (text[0] == '#' || text[0] == '\n') {
            continue;
        } else if (strcmp(line.word, "case") == 0) {
            strcpy(name, text + 5);
            name[strcspn(name, "\n")] = 0;
            is_left_out = 0;
            played++;
            begin_here();
        } else if (is_small) {
            others += !is_left_out;
            played -= !is_left_out;
            is_left_out = 1;
        } else if (!is_left_out && !play_line(&line, name)) {
            printf("%s: a line that cannot be read, in the case: %s\n", path, name);
            exit(2);
        }
    }
    fclose(file);
    if (played == 0)
        fail("no case was played");
    printf("%lu cases of holders, %lu of fewer records or entries left out\n", played, others);
}
