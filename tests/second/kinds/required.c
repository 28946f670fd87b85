/* The least numbers of what must have been compared: a test ends with an error of its own where there is less, so that
   it cannot become empty. */

#include "lent.h"

#include <stdio.h>
#include <stdlib.h>

static _Noreturn void too_few(uint64_t counted, uint64_t least)
{
    printf(": %lu were compared, at least %lu are wanted\n", counted, least);
    exit(1);
}

void require(uint64_t counted, uint64_t least, const char *things, const char *what)
{
    if (counted < least) {
        printf("the test itself, %s %s", things, what);
        too_few(counted, least);
    }
}

void require_number(uint64_t counted, uint64_t least, const char *what, uint64_t number)
{
    if (counted < least) {
        printf("the test itself, %s %lu", what, number);
        too_few(counted, least);
    }
}

void require_shell(uint64_t counted, uint64_t least, const char *what, struct shell shell)
{
    if (counted < least) {
        printf("the test itself, %s of length %lu, radius %lu and selector %lu", what, shell.length, shell.radius, shell.selector);
        too_few(counted, least);
    }
}
