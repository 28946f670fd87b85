/* The part of unistd.h that the programs in C use: the kit has no headers of a C library. */

#ifndef TOOLS_UNISTD_H
#define TOOLS_UNISTD_H

#include <sys/types.h>

#define STDOUT_FILENO 1
#define STDERR_FILENO 2

#define F_OK 0

int access(const char *path, int mode);
int chdir(const char *path);
int close(int file);
int dup2(int file, int number);
int execv(const char *program, char *const *words);
int usleep(unsigned int microseconds);
pid_t fork(void);
ssize_t read(int file, void *to, size_t size);
ssize_t write(int file, const void *from, size_t size);
unsigned int alarm(unsigned int seconds);
_Noreturn void _exit(int status);

#endif
