/* What of the C library's lists of bytes is used here. */
#ifndef BENCH_STRING_H
#define BENCH_STRING_H
#include <stddef.h>
void *memset(void *, int, size_t);
void *memcpy(void *, const void *, size_t);
int memcmp(const void *, const void *, size_t);
int strcmp(const char *, const char *);
#endif
