/* The part of sys/types.h that the programs in C use: the kit has no headers of a C library. */

#ifndef TOOLS_SYS_TYPES_H
#define TOOLS_SYS_TYPES_H

#include <stddef.h>

typedef long ssize_t;
typedef long off_t;
typedef long time_t;
typedef int pid_t;
typedef int clockid_t;
typedef unsigned int mode_t;

#endif
