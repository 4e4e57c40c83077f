/* What of the C library's memory and numbers is used here. */
#ifndef BENCH_STDLIB_H
#define BENCH_STDLIB_H
#include <stddef.h>
void *malloc(size_t);
void *realloc(void *, size_t);
void free(void *);
int atoi(const char *);
void exit(int) __attribute__((noreturn));
#endif
