/* The few names of the C library that are used here, for a machine without C headers for x86-64: .ci/c-host builds with these everywhere. */
#ifndef LIBC_STDDEF_H
#define LIBC_STDDEF_H
typedef __SIZE_TYPE__ size_t;
#define NULL ((void *)0)
#endif
