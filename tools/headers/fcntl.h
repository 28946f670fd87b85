/* The part of fcntl.h that the programs in C use: the kit has no headers of a C library. */

#ifndef TOOLS_FCNTL_H
#define TOOLS_FCNTL_H

#define O_RDONLY 0
#define O_WRONLY 01
#define O_CREAT 0100
#define O_TRUNC 01000
#define O_NONBLOCK 04000

int open(const char *path, int how, ...);

#endif
