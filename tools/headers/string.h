/* The part of string.h that the programs in C use: the kit has no headers of a C library. */

#ifndef TOOLS_STRING_H
#define TOOLS_STRING_H

#include <stddef.h>

int memcmp(const void *one, const void *other, size_t size);
int strcmp(const char *one, const char *other);
size_t strlen(const char *text);

#endif
