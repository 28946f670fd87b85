/* The part of signal.h that the programs in C use: the kit has no headers of a C library. */

#ifndef TOOLS_SIGNAL_H
#define TOOLS_SIGNAL_H

#define SIGTRAP 5
#define SIGBUS 7
#define SIGSEGV 11
#define SIGSTOP 19

void (*signal(int number, void (*handler)(int number)))(int number);
int raise(int number);

#endif
