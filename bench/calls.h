/* Calls whose instructions callgrind counts. */
#ifndef BENCH_CALLS_H
#define BENCH_CALLS_H

#include "workload.h"

/* An even number, since sets alternate between two contents. bench/run divides by it. */
enum { COUNTED_CALLS = 100 };

/* Asks a workload's requests in turn, on the bridge's own block. */
void play_counted(struct bridge *bridge, const struct workload *workload);

#endif
