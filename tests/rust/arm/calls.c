/* Plays the script's example, crates/script/stdin, and a long list of calls, some of them over damaged images, and prints
 * what came of them; then the same calls on a state of one's own, checked and unchecked, beside the image, and how often one
 * of them differed; and a list of calls with holders. It needs no C library, so that the kit's own clang and linker make it for either kind of machine; the
 * two must print the same. */

typedef unsigned char uint8_t;
typedef unsigned short uint16_t;
typedef unsigned long size_t;
typedef unsigned long uint64_t;
typedef long int64_t;

enum { IMAGE = 6447, CALLS_IN_A_ROUND = 2000 };
enum { ENTRIES = 64, ENTRY = 17, HOLDERS_IMAGE = 5 + ENTRIES * ENTRY + IMAGE };

#ifndef ROUNDS
#define ROUNDS 16
#endif

int64_t cinghjalofa_new(uint8_t *image, size_t len);
int64_t cinghjalofa_allocate(uint8_t *image, size_t len, uint64_t size, uint64_t order);
int64_t cinghjalofa_reserve_memory(uint8_t *image, size_t len, uint64_t start, uint64_t size, uint64_t order);
int64_t cinghjalofa_free(uint8_t *image, size_t len, uint64_t start, uint64_t size);
int64_t cinghjalofa_allocate_pages(uint8_t *image, size_t len, uint64_t count, uint64_t order);
int64_t cinghjalofa_free_pages(uint8_t *image, size_t len, uint64_t address, uint64_t count);
int64_t cinghjalofa_holders_new(uint8_t *image, size_t len);
int64_t cinghjalofa_holders_offer(uint8_t *image, size_t len, uint64_t start, uint64_t size);
int64_t cinghjalofa_holders_allocate(uint8_t *image, size_t len, uint64_t holder, uint64_t size, uint64_t order);
int64_t cinghjalofa_holders_reserve_memory(uint8_t *image, size_t len, uint64_t holder, uint64_t start, uint64_t size, uint64_t order);
int64_t cinghjalofa_holders_free(uint8_t *image, size_t len, uint64_t holder, uint64_t start, uint64_t size);

#define FIELDS uint64_t *, uint64_t *, uint16_t *, uint16_t *, uint64_t *, uint64_t *, uint8_t *, uint16_t *, uint16_t *, uint16_t *, uint16_t *
void cinghjalofa_fields_new(FIELDS);
int64_t cinghjalofa_fields_call(FIELDS, uint64_t kind, uint64_t x, uint64_t y, uint64_t z);
int64_t cinghjalofa_fields_call_unchecked(FIELDS, uint64_t kind, uint64_t x, uint64_t y, uint64_t z);
int64_t cinghjalofa_fields_import(FIELDS, const uint8_t *image, size_t len);
int64_t cinghjalofa_fields_export(uint64_t lowest, uint64_t total, uint16_t first, const uint16_t *, const uint64_t *, const uint64_t *, const uint8_t *,
                                  const uint16_t *, const uint16_t *, const uint16_t *, const uint16_t *, uint8_t *image, size_t len);

struct own {
    uint64_t lowest, total, start[256], end[256];
    uint16_t first, heads[12], previous[256], next[256], list_prev[256], list_next[256];
    uint8_t enabled[256];
};

#define LENT(own) &(own)->lowest, &(own)->total, &(own)->first, (own)->heads, (own)->start, (own)->end, (own)->enabled, (own)->previous, (own)->next, \
    (own)->list_prev, (own)->list_next
#define SHOWN(own) (own)->lowest, (own)->total, (own)->first, (own)->heads, (own)->start, (own)->end, (own)->enabled, (own)->previous, (own)->next, \
    (own)->list_prev, (own)->list_next

struct call {
    char kind;
    uint64_t start, size, order;
};

static const struct call script[] = {
#include "script.h" /* made by `check` */
};
enum { SCRIPT = sizeof script / sizeof *script };

#if defined(BARE) /* tests/bare has what a machine without a system has */
int64_t system_call(int64_t number, int64_t first, const void *second, size_t third);
enum { WRITE = 64, EXIT = 93 };
#else
/* What the compiler may call by itself. */
void *memcpy(void *to, const void *from, size_t count) {
    for (size_t at = 0; at < count; at++) ((volatile uint8_t *)to)[at] = ((const uint8_t *)from)[at];
    return to;
}

void *memset(void *to, int byte, size_t count) {
    for (size_t at = 0; at < count; at++) ((volatile uint8_t *)to)[at] = (uint8_t)byte;
    return to;
}

#if defined(__aarch64__)
static int64_t system_call(int64_t number, int64_t first, const void *second, size_t third) {
    register int64_t x8 __asm__("x8") = number;
    register int64_t x0 __asm__("x0") = first;
    register const void *x1 __asm__("x1") = second;
    register size_t x2 __asm__("x2") = third;
    __asm__ volatile("svc 0" : "+r"(x0) : "r"(x8), "r"(x1), "r"(x2) : "memory");
    return x0;
}
enum { WRITE = 64, EXIT = 93 };
#elif defined(__x86_64__)
static int64_t system_call(int64_t number, int64_t first, const void *second, size_t third) {
    int64_t answer;
    __asm__ volatile("syscall" : "=a"(answer) : "a"(number), "D"(first), "S"(second), "d"(third)
                     : "rcx", "r11", "memory");
    return answer;
}
enum { WRITE = 1, EXIT = 60 };
#endif
#endif

static void print_line(const char *word, int64_t number) {
    char line[64];
    size_t to = sizeof line, length = 0;
    uint64_t left = number < 0 ? -(uint64_t)number : (uint64_t)number;
    line[--to] = '\n';
    do line[--to] = (char)('0' + left % 10); while (left /= 10);
    if (number < 0) line[--to] = '-';
    line[--to] = ' ';
    while (word[length]) length++;
    while (length) line[--to] = word[--length];
    system_call(WRITE, 1, line + to, sizeof line - to);
}

static uint64_t next_random(uint64_t *seed) {
    uint64_t mixed = *seed += 0x9e3779b97f4a7c15;
    mixed = (mixed ^ mixed >> 30) * 0xbf58476d1ce4e5b9;
    mixed = (mixed ^ mixed >> 27) * 0x94d049bb133111eb;
    return mixed ^ mixed >> 31;
}

static uint64_t below(uint64_t *seed, uint64_t limit) { return next_random(seed) % limit; }

/* In each odd round pages in a small memory; in the others bytes, and numbers of any magnitude now and then. */
static struct call random_call(uint64_t *seed, int round) {
    uint64_t unit = round % 2 ? 4096 : 1;
    struct call call = {"faaffrpq"[below(seed, 8)], below(seed, 600) * unit, (1 + below(seed, 12)) * unit, below(seed, 16)};
    if (below(seed, 2)) call.order = 0;
    if (round % 2 == 0 && below(seed, 8) == 0) call.start = next_random(seed) >> below(seed, 64);
    if (round % 2 == 0 && below(seed, 8) == 0) call.size = next_random(seed) >> below(seed, 64);
    if (round % 2 == 0 && below(seed, 8) == 0) call.order = below(seed, 70);
    return call;
}

static int64_t play(uint8_t *image, const struct call *call) {
    if (call->kind == 'f') return cinghjalofa_free(image, IMAGE, call->start, call->size);
    if (call->kind == 'a') return cinghjalofa_allocate(image, IMAGE, call->size, call->order);
    if (call->kind == 'p') return cinghjalofa_allocate_pages(image, IMAGE, call->size / 4096, call->order);
    if (call->kind == 'q') return cinghjalofa_free_pages(image, IMAGE, call->start, call->size / 4096);
    return cinghjalofa_reserve_memory(image, IMAGE, call->start, call->size, call->order);
}

/* FNV-1a */
static uint64_t mix(uint64_t digest, const void *from, size_t count) {
    for (size_t at = 0; at < count; at++) digest = (digest ^ ((const uint8_t *)from)[at]) * 0x100000001b3;
    return digest;
}

/* The digest of every answer and, after it, of every byte of the image. */
static uint64_t play_round(uint8_t *image, int round, int64_t *accepted) {
    uint64_t seed = (uint64_t)round, digest = 0xcbf29ce484222325;
    cinghjalofa_new(image, IMAGE);
    for (int at = 0; at < CALLS_IN_A_ROUND; at++) {
        struct call call = random_call(&seed, round);
        uint8_t *damaged = below(&seed, 20) ? 0 : image + below(&seed, IMAGE);
        uint8_t before = damaged ? *damaged : 0;
        if (damaged) *damaged ^= (uint8_t)(1 + below(&seed, 255));
        int64_t answer = play(image, &call);
        *accepted += answer >= 0;
        digest = mix(mix(digest, &answer, sizeof answer), image, IMAGE);
        if (damaged && answer == -2) *damaged = before;
    }
    return digest;
}

static uint64_t number_at(const uint8_t *bytes) {
    uint64_t number = 0;
    for (int at = 0; at < 8; at++) number = number << 8 | bytes[at];
    return number;
}

/* An offer, a take, or a free: of the entry that was drawn, where it is used. */
static int64_t play_by(uint8_t *image, const struct call *call, uint64_t holder, const uint8_t *entry) {
    if (call->kind == 'f') return cinghjalofa_holders_offer(image, HOLDERS_IMAGE, call->start, call->size);
    if (call->kind == 'r') return cinghjalofa_holders_reserve_memory(image, HOLDERS_IMAGE, holder, call->start, call->size, call->order);
    if (call->kind != 'q') return cinghjalofa_holders_allocate(image, HOLDERS_IMAGE, holder, call->size, call->order);
    if (!entry[0]) return cinghjalofa_holders_free(image, HOLDERS_IMAGE, holder, call->start, call->size);
    return cinghjalofa_holders_free(image, HOLDERS_IMAGE, entry[0], number_at(entry + 1), number_at(entry + 9) - number_at(entry + 1) + 1);
}

/* As play_round, with holders, 0 and 17 among them. */
static uint64_t play_holders(uint8_t *image, int round, int64_t *accepted) {
    uint64_t seed = (uint64_t)round, digest = 0xcbf29ce484222325;
    cinghjalofa_holders_new(image, HOLDERS_IMAGE);
    for (int at = 0; at < CALLS_IN_A_ROUND; at++) {
        struct call call = random_call(&seed, round);
        uint64_t holder = below(&seed, 18);
        const uint8_t *entry = image + 5 + ENTRY * below(&seed, ENTRIES);
        uint8_t *damaged = below(&seed, 20) ? 0 : image + below(&seed, HOLDERS_IMAGE);
        uint8_t before = damaged ? *damaged : 0;
        if (damaged) *damaged ^= (uint8_t)(1 + below(&seed, 255));
        int64_t answer = play_by(image, &call, holder, entry);
        *accepted += answer >= 0;
        digest = mix(mix(digest, &answer, sizeof answer), image, HOLDERS_IMAGE);
        if (damaged && answer == -2) *damaged = before;
    }
    return digest;
}

/* The words of a call on a state of one's own. */
static void in_words(uint64_t *words, const struct call *call) {
    words[0] = call->kind == 'f' ? 1 : call->kind == 'a' ? 2 : call->kind == 'r' ? 3 : call->kind == 'p' ? 4 : 5;
    words[1] = call->kind == 'a' ? call->size : call->kind == 'p' ? call->size / 4096 : call->start;
    words[2] = call->kind == 'a' || call->kind == 'p' ? call->order : call->kind == 'q' ? call->size / 4096 : call->size;
    words[3] = call->order;
}

static int64_t differs(const uint8_t *image, struct own *own) {
    static uint8_t exported[IMAGE];
    int64_t found = cinghjalofa_fields_export(SHOWN(own), exported, IMAGE) != 0;
    for (size_t at = 0; at < IMAGE; at++) found += exported[at] != image[at];
    return found;
}

/* A round over the image, on a state that is checked at each call, and on one that is not and begins with an image: the answers and the
 * images that differ; and one more where a damaged state, or a damaged image, is not answered -2. */
static int64_t play_owned(uint8_t *image, int round) {
    static struct own checked, unchecked;
    uint64_t seed = (uint64_t)round, w[4];
    int64_t found = 0;
    cinghjalofa_new(image, IMAGE);
    cinghjalofa_fields_new(LENT(&checked));
    found += cinghjalofa_fields_import(LENT(&unchecked), image, IMAGE) != 0;
    for (int at = 0; at < CALLS_IN_A_ROUND; at++) {
        struct call call = random_call(&seed, round);
        in_words(w, &call);
        int64_t answer = play(image, &call);
        found += cinghjalofa_fields_call(LENT(&checked), w[0], w[1], w[2], w[3]) != answer;
        found += cinghjalofa_fields_call_unchecked(LENT(&unchecked), w[0], w[1], w[2], w[3]) != answer;
        found += differs(image, &checked) + differs(image, &unchecked);
        checked.total ^= 1;
        found += cinghjalofa_fields_call(LENT(&checked), w[0], w[1], w[2], w[3]) != -2;
        checked.total ^= 1;
    }
    image[5] ^= 1;
    return found + (cinghjalofa_fields_import(LENT(&unchecked), image, IMAGE) != -2);
}

void run_all(void) {
    static uint8_t image[HOLDERS_IMAGE + 1];
    int64_t accepted = 0, differing = 0;
    print_line("new over a longer slice", cinghjalofa_new(image, IMAGE + 1));
    print_line("new", cinghjalofa_new(image, IMAGE));
    for (int at = 0; at < SCRIPT; at++) print_line("script", play(image, &script[at]));
    for (int round = 0; round < ROUNDS; round++) print_line("digest", (int64_t)play_round(image, round, &accepted));
    for (int round = 0; round < ROUNDS; round++) differing += play_owned(image, round);
    print_line("differing on a state of one's own", differing);
    print_line("new with holders over a longer slice", cinghjalofa_holders_new(image, HOLDERS_IMAGE + 1));
    for (int round = 0; round < (ROUNDS + 3) / 4; round++) print_line("digest with holders", (int64_t)play_holders(image, round, &accepted));
    print_line("accepted", accepted);
    system_call(EXIT, 0, 0, 0);
}

#if defined(BARE)
#elif defined(__aarch64__)
__asm__(".globl _start\n_start: bl run_all\n");
#elif defined(__x86_64__)
__asm__(".globl _start\n_start: call run_all\n");
#endif
