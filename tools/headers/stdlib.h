/* The part of stdlib.h that the programs in C use: the kit has no headers of a C library. */

#ifndef TOOLS_STDLIB_H
#define TOOLS_STDLIB_H

#include <stddef.h>

_Noreturn void exit(int status);
int atoi(const char *text);
void qsort(void *items, size_t number, size_t size, int (*compare)(const void *one, const void *other));

#endif
