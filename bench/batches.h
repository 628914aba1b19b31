/* The check of a batch, measured. */
#ifndef BENCH_BATCHES_H
#define BENCH_BATCHES_H

#include "workload.h"

/* How many batches are measured. */
enum { BATCHES = 4 };

/* Checks batches of 64 messages with 16 bindings each, which are accepted, on a fresh and on a full bridge of 64 ports, and prints the time of a call and how
 * far down the stack it goes, also on batches that are cut and on a damaged block. */
void print_batches(const struct bridge *fresh, const struct bridge *full);

/* One check of a batch, by its number, for callgrind to count; prints its title. */
void check_one(size_t number, const struct bridge *fresh, const struct bridge *full);

#endif
