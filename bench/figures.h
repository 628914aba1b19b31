/* Clocks and medians. */
#ifndef BENCH_FIGURES_H
#define BENCH_FIGURES_H

#include <stddef.h>
#include <stdint.h>
#include <time.h>

/* A figure is the median of as many rounds. */
enum { ROUNDS = 21 };

uint64_t now(clockid_t clock);

double median(const double *values, size_t count);

#endif
