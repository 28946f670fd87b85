/* The part of stdio.h that the programs in C use: the kit has no headers of a C library. */

#ifndef TOOLS_STDIO_H
#define TOOLS_STDIO_H

#include <stddef.h>

typedef struct _IO_FILE FILE;

FILE *fopen(const char *path, const char *mode);
size_t fread(void *to, size_t size, size_t number, FILE *from);
size_t fwrite(const void *from, size_t size, size_t number, FILE *to);
int fclose(FILE *file);
__attribute__((format(printf, 1, 2))) int printf(const char *format, ...);
__attribute__((format(printf, 2, 3))) int dprintf(int file, const char *format, ...);
__attribute__((format(printf, 2, 3))) int fprintf(FILE *to, const char *format, ...);
__attribute__((format(printf, 3, 4))) int snprintf(char *to, size_t size, const char *format, ...);

#endif
