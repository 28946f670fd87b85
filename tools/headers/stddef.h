/* The part of stddef.h that the programs in C use: the kit has no headers of a C library. */

#ifndef TOOLS_STDDEF_H
#define TOOLS_STDDEF_H

typedef __SIZE_TYPE__ size_t;

#define NULL ((void *)0)

#endif
