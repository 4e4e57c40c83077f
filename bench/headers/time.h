/* The clock that only goes forward, and the processor time of this program. */
#ifndef BENCH_TIME_H
#define BENCH_TIME_H
#define CLOCK_MONOTONIC 1
#define CLOCK_PROCESS_CPUTIME_ID 2
struct timespec {
    long tv_sec, tv_nsec;
};
int clock_gettime(int, struct timespec *);
#endif
