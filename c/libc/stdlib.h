#ifndef LIBC_STDLIB_H
#define LIBC_STDLIB_H
void exit(int) __attribute__((noreturn));
#endif
