/* The part of time.h that the programs in C use: the kit has no headers of a C library. */

#ifndef TOOLS_TIME_H
#define TOOLS_TIME_H

#include <sys/types.h>

#define CLOCK_MONOTONIC 1

struct timespec {
    time_t tv_sec;
    long tv_nsec;
};

int clock_gettime(clockid_t clock, struct timespec *to);

#endif
