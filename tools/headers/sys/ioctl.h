/* The part of sys/ioctl.h that the programs in C use: the kit has no headers of a C library. */

#ifndef TOOLS_SYS_IOCTL_H
#define TOOLS_SYS_IOCTL_H

#define FIONREAD 0x541b

int ioctl(int file, unsigned long request, ...);

#endif
