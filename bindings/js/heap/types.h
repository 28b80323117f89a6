/* The types of stddef.h and stdint.h that are used here. The toolchain's clang comes without headers. */
#ifndef TYPES_H
#define TYPES_H
#define NULL ((void *)0)
typedef __SIZE_TYPE__ size_t;
typedef __UINTPTR_TYPE__ uintptr_t;
typedef __UINT8_TYPE__ uint8_t;
typedef __UINT64_TYPE__ uint64_t;
#endif
