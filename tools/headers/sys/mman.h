/* The part of sys/mman.h that the programs in C use: the kit has no headers of a C library. */

#ifndef TOOLS_SYS_MMAN_H
#define TOOLS_SYS_MMAN_H

#include <sys/types.h>

#define PROT_NONE 0
#define PROT_READ 1
#define PROT_WRITE 2

#define MAP_PRIVATE 0x02
#define MAP_ANONYMOUS 0x20

void *mmap(void *at, size_t size, int access, int manner, int file, off_t offset);
int mprotect(void *at, size_t size, int access);

#endif
