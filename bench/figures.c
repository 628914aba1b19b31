#define _DEFAULT_SOURCE
#include "figures.h"

#include <stdlib.h>
#include <string.h>

#include "requests.h"

enum { MOST = 256 };

uint64_t now(clockid_t clock)
{
    struct timespec time;

    clock_gettime(clock, &time);
    return (uint64_t)time.tv_sec * 1000000000u + (uint64_t)time.tv_nsec;
}

static int ascending(const void *a, const void *b)
{
    double x = *(const double *)a, y = *(const double *)b;

    return (x > y) - (x < y);
}

double median(const double *values, size_t count)
{
    double sorted[MOST];

    REQUIRE(count <= MOST, "a median of %zu values", count);
    memcpy(sorted, values, count * sizeof *values);
    qsort(sorted, count, sizeof *sorted, ascending);
    return sorted[count / 2];
}
