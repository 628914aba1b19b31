/* The run tally: events and reports a second, beside a pass over the list in C. */
#ifndef BENCH_TALLY_H
#define BENCH_TALLY_H

void print_tallies(void);

#endif
