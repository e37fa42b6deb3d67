/* A `read` and a `write` that a signal interrupts two times out of three, and that move a few bytes at a time: put before the C
 * library's own when the program is started. */
#define _GNU_SOURCE
#include <dlfcn.h>
#include <errno.h>
#include <unistd.h>

static unsigned calls;

static int is_interrupted(void)
{
    errno = EINTR;
    return ++calls % 3 != 0;
}

ssize_t read(int fd, void *to, size_t size)
{
    ssize_t (*real)(int, void *, size_t) = (ssize_t(*)(int, void *, size_t))dlsym(RTLD_NEXT, "read");

    return is_interrupted() ? -1 : real(fd, to, size > 5 ? 5 : size);
}

ssize_t write(int fd, const void *from, size_t size)
{
    ssize_t (*real)(int, const void *, size_t) = (ssize_t(*)(int, const void *, size_t))dlsym(RTLD_NEXT, "write");

    return is_interrupted() ? -1 : real(fd, from, size > 3 ? 3 : size);
}
