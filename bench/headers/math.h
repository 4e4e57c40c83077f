/* What of the C library's functions of real numbers is used here. */
#ifndef BENCH_MATH_H
#define BENCH_MATH_H
double log(double);
double exp(double);
#endif
