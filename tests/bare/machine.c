/*
 * An Arm machine without a system, as a hypervisor finds it: exception level 2, MMU off. Here unaligned accesses fault and vector
 * registers trap; the machine first sees that they do, then makes the calls of tests/rust/arm/calls.c and those of the crate. A fault
 * that nobody expects ends the run. QEMU's `virt` machine has the serial port; the run ends by a call of its debugger.
 */
typedef unsigned char uint8_t;
typedef unsigned int uint32_t;
typedef unsigned long uint64_t, uintptr_t, size_t;
typedef long int64_t;

enum { WRITE = 64, EXIT = 93 };
enum { UNALIGNED_AT_OWN_LEVEL = 0x25, VECTOR_TRAPPED = 0x07, ALIGNMENT = 0x21 };

void run_all(void);      /* calls.c */
void run_the_crate(void); /* crate/bare.rs */

static volatile uint32_t *const serial = (volatile uint32_t *)0x09000000;
static volatile uint64_t expected, seen;
_Alignas(16) uint8_t stack[65536];

static void say(const char *text, size_t count) {
    for (size_t at = 0; at < count; at++) *serial = (uint8_t)text[at];
}

static void say_text(const char *text) {
    size_t count = 0;
    while (text[count]) count++;
    say(text, count);
}

static void say_hex(uint64_t number) {
    for (int at = 60; at >= 0; at -= 4) *serial = (uint32_t)"0123456789abcdef"[number >> at & 15];
    *serial = '\n';
}

__attribute__((noreturn)) static void stop(uint64_t status) {
    uint64_t block[2] = {0x20026, status}; /* ended by the program */
    register uint64_t x0 __asm__("x0") = 0x18;
    register uint64_t x1 __asm__("x1") = (uint64_t)block;
    for (;;) __asm__ volatile("hlt #0xf000" : : "r"(x0), "r"(x1) : "memory");
}

/* An expected fault is noted, and its instruction passed over. */
void trapped(void) {
    uint64_t why, where;
    __asm__ volatile("mrs %0, esr_el2\n mrs %1, elr_el2" : "=r"(why), "=r"(where));
    if (!expected) {
        say_text("FAULT ");
        say_hex(why);
        say_text("at ");
        say_hex(where);
        stop(3);
    }
    expected = 0;
    seen = why;
    __asm__ volatile("msr elr_el2, %0" : : "r"(where + 4));
}

__asm__(".balign 2048\nvectors:\n"
        ".rept 16\n.balign 128\n  b handler\n.endr\n"
        "handler:\n"
        "  stp x0, x1, [sp, #-160]!\n  stp x2, x3, [sp, #16]\n  stp x4, x5, [sp, #32]\n  stp x6, x7, [sp, #48]\n"
        "  stp x8, x9, [sp, #64]\n  stp x10, x11, [sp, #80]\n  stp x12, x13, [sp, #96]\n  stp x14, x15, [sp, #112]\n"
        "  stp x16, x17, [sp, #128]\n  stp x18, x30, [sp, #144]\n  bl trapped\n"
        "  ldp x18, x30, [sp, #144]\n  ldp x16, x17, [sp, #128]\n  ldp x14, x15, [sp, #112]\n  ldp x12, x13, [sp, #96]\n"
        "  ldp x10, x11, [sp, #80]\n  ldp x8, x9, [sp, #64]\n  ldp x6, x7, [sp, #48]\n  ldp x4, x5, [sp, #32]\n"
        "  ldp x2, x3, [sp, #16]\n  ldp x0, x1, [sp], #160\n  eret\n");
__asm__(".globl _start\n_start:\n  adrp x0, stack + 65536\n  add x0, x0, :lo12:stack + 65536\n  mov sp, x0\n"
        "  adr x0, vectors\n  msr vbar_el2, x0\n"
        "  mrs x0, cptr_el2\n  orr x0, x0, #(1 << 10)\n  msr cptr_el2, x0\n" /* vector registers trap */
        "  mrs x0, sctlr_el2\n  orr x0, x0, #2\n  msr sctlr_el2, x0\n"     /* unaligned accesses fault */
        "  isb\n  b begin\n");

static void must(int is_so, const char *what) {
    if (is_so) return;
    say_text("NOT SO: ");
    say_text(what);
    say_text("\n");
    stop(4);
}

/* The machine is the one that the test speaks of. */
static void look(void) {
    static uint64_t words[2];
    uint64_t level, control, read;
    __asm__ volatile("mrs %0, CurrentEL\n mrs %1, sctlr_el2" : "=r"(level), "=r"(control));
    must(level == 2 << 2, "exception level 2");
    must((control & 1) == 0, "the MMU is off");
    expected = 1;
    __asm__ volatile("ldr %0, [%1]" : "=r"(read) : "r"((uint8_t *)words + 1) : "memory");
    must(!expected && seen >> 26 == UNALIGNED_AT_OWN_LEVEL && (seen & 63) == ALIGNMENT, "an unaligned access faults");
    expected = 1;
    __asm__ volatile(".arch_extension simd\n movi v0.2d, #0\n .arch_extension nosimd" : : : "memory");
    must(!expected && seen >> 26 == VECTOR_TRAPPED, "a vector register traps");
}

void begin(void) {
    look();
    say_text("level 2, MMU off, unaligned accesses fault, vector registers trap\n");
    run_the_crate();
    run_all();
}

/* What calls.c asks a system for. */
int64_t system_call(int64_t number, int64_t first, const void *second, size_t third) {
    if (number == EXIT) stop((uint64_t)first);
    say(second, third);
    return (int64_t)third;
}

/* What the compilers may call by themselves: bytes, one by one, by general registers. */
void *memcpy(void *to, const void *from, size_t count) {
    for (size_t at = 0; at < count; at++) ((volatile uint8_t *)to)[at] = ((const uint8_t *)from)[at];
    return to;
}

void *memmove(void *to, const void *from, size_t count) {
    if ((uintptr_t)to <= (uintptr_t)from) return memcpy(to, from, count);
    while (count-- > 0) ((volatile uint8_t *)to)[count] = ((const uint8_t *)from)[count];
    return to;
}

void *memset(void *to, int byte, size_t count) {
    for (size_t at = 0; at < count; at++) ((volatile uint8_t *)to)[at] = (uint8_t)byte;
    return to;
}

int memcmp(const void *one, const void *other, size_t count) {
    for (size_t at = 0; at < count; at++) {
        const int difference = ((const volatile uint8_t *)one)[at] - ((const volatile uint8_t *)other)[at];
        if (difference) return difference;
    }
    return 0;
}
