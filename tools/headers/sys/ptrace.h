/* The part of sys/ptrace.h that the programs in C use: the kit has no headers of a C library. */

#ifndef TOOLS_SYS_PTRACE_H
#define TOOLS_SYS_PTRACE_H

enum __ptrace_request { PTRACE_TRACEME = 0, PTRACE_SINGLESTEP = 9 };

long ptrace(enum __ptrace_request request, ...);

#endif
