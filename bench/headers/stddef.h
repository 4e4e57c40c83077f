/* Counts, and the pointer to nothing. */
#ifndef BENCH_STDDEF_H
#define BENCH_STDDEF_H
typedef __SIZE_TYPE__ size_t;
#define NULL ((void *)0)
#endif
