/*
 * What a program takes from a C library, for one that is linked with none: the start and the end, read, write, the reason of a
 * failure, a signal that is passed over, and what a compiler may call by itself. For Linux on x86-64 and on Arm, by the kit's own clang and linker, so that the
 * same bytes come out of every machine. It is trusted, as the C library is whose place it takes.
 */
typedef unsigned long size_t;
typedef long ssize_t;

int main(int count, char **words);

static int reason;

#if defined(__aarch64__)
enum { READ = 63, WRITE = 64, EXIT = 94, ACTION = 134 };

static long call(long number, long x, const void *y, size_t z, size_t w) {
    register long x8 __asm__("x8") = number;
    register long x0 __asm__("x0") = x;
    register const void *x1 __asm__("x1") = y;
    register size_t x2 __asm__("x2") = z;
    register size_t x3 __asm__("x3") = w;
    __asm__ volatile("svc 0" : "+r"(x0) : "r"(x8), "r"(x1), "r"(x2), "r"(x3) : "memory");
    return x0;
}

__asm__(".globl _start\n_start:\n  mov x29, #0\n  mov x30, #0\n  mov x0, sp\n  and sp, x0, #-16\n  b begin\n");
#elif defined(__x86_64__)
enum { READ = 0, WRITE = 1, EXIT = 231, ACTION = 13 };

static long call(long number, long x, const void *y, size_t z, size_t w) {
    register size_t r10 __asm__("r10") = w;
    long answer;
    __asm__ volatile("syscall" : "=a"(answer) : "a"(number), "D"(x), "S"(y), "d"(z), "r"(r10) : "rcx", "r11", "memory");
    return answer;
}

__asm__(".globl _start\n_start:\n  xor %ebp, %ebp\n  mov %rsp, %rdi\n  and $-16, %rsp\n  call begin\n");
#endif

__attribute__((noreturn)) void begin(long *stack) {
    call(EXIT, main((int)*stack, (char **)(stack + 1)), 0, 0, 0);
    for (;;) {
    }
}

/* A negative number of the kernel's is minus the reason. */
static ssize_t told(long answer) {
    if (answer >= 0) return answer;
    reason = (int)-answer;
    return -1;
}

ssize_t read(int from, void *to, size_t count) { return told(call(READ, from, to, count, 0)); }
ssize_t write(int to, const void *from, size_t count) { return told(call(WRITE, to, from, count, 0)); }
int rattle_errno(void) { return reason; }

/* The kernel's words for it are the handler, then flags and signals, of which there are none. */
long __sysv_signal(int number, long handler) {
    const long action[4] = {handler, 0, 0, 0};
    return told(call(ACTION, number, action, 0, 8));
}

void *memcpy(void *restrict to, const void *restrict from, size_t count) {
    size_t at;
    for (at = 0; at < count; at++) ((volatile char *)to)[at] = ((const char *)from)[at];
    return to;
}

void *memmove(void *to, const void *from, size_t count) {
    if ((size_t)to <= (size_t)from) return memcpy(to, from, count);
    while (count-- > 0) ((volatile char *)to)[count] = ((const char *)from)[count];
    return to;
}

void *memset(void *to, int byte, size_t count) {
    size_t at;
    for (at = 0; at < count; at++) ((volatile char *)to)[at] = (char)byte;
    return to;
}

int memcmp(const void *one, const void *other, size_t count) {
    size_t at;
    for (at = 0; at < count; at++) {
        const int difference = ((const unsigned char *)one)[at] - ((const unsigned char *)other)[at];
        if (difference) return difference;
    }
    return 0;
}

/* The reasons that a read or a write may have on Linux, whose numbers are the same on both machines. */
static const struct {
    int number;
    const char *words;
} reasons[] = {
    {1, "Operation not permitted"}, {4, "Interrupted system call"}, {5, "Input/output error"}, {6, "No such device or address"}, {9, "Bad file descriptor"},
    {11, "Resource temporarily unavailable"}, {12, "Cannot allocate memory"}, {13, "Permission denied"}, {14, "Bad address"}, {19, "No such device"},
    {21, "Is a directory"}, {22, "Invalid argument"}, {27, "File too large"}, {28, "No space left on device"}, {30, "Read-only file system"},
    {32, "Broken pipe"}, {89, "Destination address required"}, {95, "Operation not supported"}, {104, "Connection reset by peer"},
    {107, "Transport endpoint is not connected"}, {110, "Connection timed out"}, {116, "Stale file handle"}, {122, "Disk quota exceeded"},
};

/* As POSIX has it: 0, or 34 (ERANGE) where the words do not fit. */
int __xpg_strerror_r(int number, char *to, size_t room) {
    const char *words = "Unknown error";
    size_t at;
    for (at = 0; at < sizeof reasons / sizeof *reasons; at++)
        if (reasons[at].number == number) words = reasons[at].words;
    for (at = 0; at + 1 < room && words[at]; at++) to[at] = words[at];
    if (room > 0) to[at] = 0;
    return words[at] || room == 0 ? 34 : 0;
}
