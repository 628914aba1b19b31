/* The comparison of two walks, measured. */
#ifndef BENCH_WALKS_H
#define BENCH_WALKS_H

#include "workload.h"

/* Takes the complete walk of a bridge, compares it and its halves with equal walks and with walks in which every instance differs, and prints the time of
 * a call and of an instance: the cost is linear where the second is the same for all lengths. */
void print_walks(const struct bridge *bridge);

#endif
