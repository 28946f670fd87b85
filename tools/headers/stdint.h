/* The part of stdint.h that the programs in C use: the kit has no headers of a C library. */

#ifndef TOOLS_STDINT_H
#define TOOLS_STDINT_H

typedef __INT32_TYPE__ int32_t;
typedef __INT64_TYPE__ int64_t;
typedef __UINT8_TYPE__ uint8_t;
typedef __UINT32_TYPE__ uint32_t;
typedef __UINT64_TYPE__ uint64_t;

#define INT32_MAX __INT32_MAX__
#define INT32_MIN (-INT32_MAX - 1)
#define UINT64_MAX __UINT64_MAX__

#endif
