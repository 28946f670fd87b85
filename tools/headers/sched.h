/* The part of sched.h that the programs in C use: the kit has no headers of a C library. */

#ifndef TOOLS_SCHED_H
#define TOOLS_SCHED_H

#include <sys/types.h>

#define CPU_SETSIZE 1024

typedef struct {
    unsigned long __bits[CPU_SETSIZE / 64];
} cpu_set_t;

#define CPU_ZERO(set) ((void)(*(set) = (cpu_set_t){{0}}))
#define CPU_SET(number, set) ((void)((set)->__bits[(size_t)(number) / 64] |= 1ul << (size_t)(number) % 64))

int sched_getcpu(void);
int sched_getaffinity(pid_t process, size_t size, cpu_set_t *to);
int sched_setaffinity(pid_t process, size_t size, const cpu_set_t *from);

#endif
