/* The part of sys/wait.h that the programs in C use: the kit has no headers of a C library. */

#ifndef TOOLS_SYS_WAIT_H
#define TOOLS_SYS_WAIT_H

#include <sys/types.h>

#define WIFSTOPPED(status) (((status) & 0xff) == 0x7f)
#define WSTOPSIG(status) ((status) >> 8 & 0xff)

pid_t waitpid(pid_t process, int *status, int options);

#endif
