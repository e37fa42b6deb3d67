/* What the parts of the C program share: a call, the fenced area that it is made in, and the report. */
#ifndef CALLS_H
#define CALLS_H

#include "cinghjalofa.h"

#define AREA_BYTES 65536
#define IMAGE_BYTES CINGHJALOFA_IMAGE_BYTES

enum kind { NEW, ALLOCATE, RESERVE, FREE, ALLOCATE_PAGES, FREE_PAGES };

/* size: of the page calls the count of pages */
struct call {
    enum kind kind;
    uint64_t start, size, order;
};

/* area.c: AREA_BYTES of memory between two fences that end the program where they are touched */
extern uint8_t *area;
void open_area(void);
void fill_area(void);
void put_image(const uint8_t *image, size_t at);

/*
 * Lends the area's bytes from `at` on, `len` of them, to one call. A byte that changed outside the slice, or anywhere
 * after a refusal, is a failure; and so is an answer that is not the wanted one.
 */
int64_t lend(struct call call, size_t at, size_t len);
void expect(struct call call, size_t at, size_t len, int64_t wanted, const char *why);

/* The same, around a call that another part makes: what it is, and behind it the slice and the answer; and an answer held to the wanted one. */
void begin_call(const char *what);
void end_call(size_t at, size_t len, int64_t answer);
void judge_answer(int64_t answer, int64_t wanted, const char *why);

/* the report */
extern unsigned long calls_made, failures;
void fail(const char *what);

/* contract.c, cases.c, lists.c, own.c, accounts.c, holders.c: the tests */
void test_contract(void);
void test_cases(const char *path);
void test_lists(void);
void test_own(void);
void test_accounts(void);
void test_holders(const char *path);

#endif
