/* The part of sys/stat.h that the programs in C use: the kit has no headers of a C library. */

#ifndef TOOLS_SYS_STAT_H
#define TOOLS_SYS_STAT_H

#include <sys/types.h>

int mkdir(const char *path, mode_t mode);

#endif
