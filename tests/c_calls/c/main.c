/* The C calls from C: `calls CASES HOLDERS`. Exit status 0: all as it must be; 1: something was not; 2: it could not be tried. */
#include "calls.h"

#include <stdio.h>

int main(int count, char **words)
{
    if (count != 3) {
        fprintf(stderr, "usage: %s CASES HOLDERS\n", words[0]);
        return 2;
    }
    open_area();
    test_contract();
    test_cases(words[1]);
    test_lists();
    test_accounts();
    test_holders(words[2]);
    test_own(); /* the longest, last: most of the ports broken on purpose are noticed before */
    printf("%lu calls, %lu failures\n", calls_made, failures);
    return failures ? 1 : 0;
}
