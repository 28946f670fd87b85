/* Reading a file, for the programs that list. */

#ifndef BENCH_FILLING_H
#define BENCH_FILLING_H

#include <stddef.h>

/* filling.c */
size_t fill(int file, void *to, size_t size);

#endif
