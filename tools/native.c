/* What the kit's own C code gives a program, for one that is linked with another machine's C library. */
#include <errno.h>

int rattle_errno(void)
{
    return errno;
}
