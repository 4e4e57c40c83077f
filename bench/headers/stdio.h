/* What of the C library's output is used here. */
#ifndef BENCH_STDIO_H
#define BENCH_STDIO_H
#include <stddef.h>
int printf(const char *, ...) __attribute__((format(printf, 1, 2)));
int snprintf(char *, size_t, const char *, ...) __attribute__((format(printf, 3, 4)));
int fflush(void *);
#endif
