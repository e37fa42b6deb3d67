/* Plays the table of cases: each call's answer, and the free ranges that the image then holds, with their records. */
#include "calls.h"

#include <stdio.h>
#include <stdlib.h>
#include <string.h>

#define LONGEST_LINE 400
#define MOST_NUMBERS 32
#define NONE 65535
#define AT 12345
#define RECORDS_AT 47
#define RECORD_BYTES 25

struct line {
    char word[8];
    uint64_t numbers[MOST_NUMBERS];
    size_t count;
};

struct table {
    uint64_t records;
    char name[LONGEST_LINE]; /* of the case */
    int left_out;            /* it is of another number of records */
    unsigned long played, others;
};

/* Numbers, RECORDS and K with `*`, `+` and `-` between them, from left to right; below 0 it is the 64-bit pattern. */
static uint64_t number(const char *text, uint64_t records, uint64_t k)
{
    uint64_t value = 0;
    char sign = *text == '-' ? *text++ : '+';

    for (;;) {
        const size_t length = strcspn(text, "*+-");
        const uint64_t operand = *text == 'R' ? records : *text == 'K' ? k : strtoull(text, NULL, 10);
        value = sign == '*' ? value * operand : sign == '-' ? value - operand : value + operand;
        text += length;
        if (!*text)
            return value;
        sign = *text++;
    }
}

/* The word and the numbers of a line. */
static struct line split(const char *text, uint64_t records, uint64_t k)
{
    char copy[LONGEST_LINE];
    struct line line;
    char *field;

    snprintf(copy, sizeof copy, "%s", text);
    memset(&line, 0, sizeof line);
    field = strtok(copy, " =|\n");
    if (field)
        strncpy(line.word, field, sizeof line.word - 1);
    while ((field = strtok(NULL, " =|\n")) && line.count < MOST_NUMBERS)
        line.numbers[line.count++] = number(field, records, k);
    return line;
}

static void play(enum kind kind, uint64_t start, uint64_t size, uint64_t order, uint64_t wanted, const char *name)
{
    const struct call call = {kind, start, size, order};

    expect(call, AT, IMAGE_BYTES, (int64_t)wanted, name);
}

static uint64_t number_at(const uint8_t *bytes)
{
    uint64_t number = 0;

    for (int i = 0; i < 8; i++)
        number = number << 8 | bytes[i];
    return number;
}

static uint16_t link_at(const uint8_t *bytes)
{
    return (uint16_t)(bytes[0] << 8 | bytes[1]);
}

/* The ranges from the image's first record along `next`, against FIRST LAST .., or RECORD FIRST LAST .. if `width` is 3. */
static void check_ranges(const uint64_t *wanted, size_t count, size_t width, uint64_t total)
{
    const uint8_t *image = area + AT;
    size_t met = 0;

    if (number_at(image + 5) != total)
        fail("the image after this call holds another total");
    for (uint16_t at = link_at(image + 13); at != NONE && met <= count; met++, wanted += width) {
        const uint8_t *record = image + RECORDS_AT + RECORD_BYTES * at;
        if (met < count && width == 3 && wanted[0] != at)
            fail("the image after this call holds a range in another record");
        if (met < count && (number_at(record) != wanted[width - 2] || number_at(record + 8) != wanted[width - 1]))
            fail("the image after this call holds another range");
        at = link_at(record + 19);
    }
    if (met != count)
        fail("the image after this call holds another number of ranges");
}

static void check_chain(const struct line *line)
{
    uint64_t total = 0;

    for (size_t i = 0; i < line->count; i += 3)
        total += line->numbers[i + 2] - line->numbers[i + 1] + 1;
    check_ranges(line->numbers, line->count / 3, 3, total);
}

static int play_line(const struct line *line, const char *name)
{
    const uint64_t *n = line->numbers;

    if (strcmp(line->word, "f") == 0 && line->count == 3)
        play(FREE, n[0], n[1], 0, n[2], name);
    else if (strcmp(line->word, "a") == 0 && line->count == 3)
        play(ALLOCATE, 0, n[0], n[1], n[2], name);
    else if (strcmp(line->word, "r") == 0 && line->count == 4)
        play(RESERVE, n[0], n[1], n[2], n[3], name);
    else if (strcmp(line->word, "p") == 0 && line->count == 3)
        play(ALLOCATE_PAGES, 0, n[0], n[1], n[2], name);
    else if (strcmp(line->word, "q") == 0 && line->count == 3)
        play(FREE_PAGES, n[0], n[1], 0, n[2], name);
    else if (strcmp(line->word, "list") == 0 && line->count >= 2 && line->count == 2 + 2 * n[0])
        check_ranges(n + 2, n[0], 2, n[1]);
    else if (strcmp(line->word, "chain") == 0 && line->count % 3 == 0)
        check_chain(line);
    else
        return strcmp(line->word, "shelf") == 0; /* the driver beside holds the image to it */
    return 1;
}

static void begin_case(struct table *table, const char *name)
{
    snprintf(table->name, sizeof table->name, "%.*s", (int)strcspn(name, "\n"), name);
    table->left_out = 0;
    table->played++;
    play(NEW, 0, 0, 0, 0, table->name);
}

/* Whether the line could be read. */
static int take_line(struct table *table, const char *text)
{
    const struct line line = split(text, table->records, 0);
    int rest = 0;

    if (strcmp(line.word, "case") == 0) {
        begin_case(table, text + 5);
    } else if (strcmp(line.word, "pool") == 0) {
        table->records = line.numbers[0];
    } else if (strcmp(line.word, "records") == 0) {
        table->left_out = 1;
        table->played--;
        table->others++;
    } else if (strcmp(line.word, "section") != 0 && !table->left_out) {
        if (strcmp(line.word, "each") != 0)
            return play_line(&line, table->name);
        sscanf(text, "each %*s %*s %n", &rest);
        for (uint64_t k = line.numbers[0]; k <= line.numbers[1]; k++) {
            const struct line each = split(text + rest, table->records, k);
            if (rest == 0 || !play_line(&each, table->name))
                return 0;
        }
    }
    return 1;
}

void test_cases(const char *path)
{
    struct table table = {0, "", 0, 0, 0};
    char text[LONGEST_LINE];
    FILE *file = fopen(path, "r");

    if (!file) {
        perror(path);
        exit(2);
    }
    fill_area();
    while (fgets(text, sizeof text, file)) {
        if (text[0] != '#' && text[0] != '\n' && !take_line(&table, text)) {
            printf("%s: a line that cannot be read, in the case: %s\n", path, table.name);
            exit(2);
        }
    }
    fclose(file);
    if (table.records != (IMAGE_BYTES - RECORDS_AT) / RECORD_BYTES)
        fail("the table is of another number of records");
    printf("%lu cases, %lu of other numbers of records left out\n", table.played, table.others);
}
