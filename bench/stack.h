/* How deep calls of the library go into the stack. */
#ifndef BENCH_STACK_H
#define BENCH_STACK_H

#include "workload.h"

struct depth {
    size_t answer; /* octets of rb_answer's deepest call */
    char what[96]; /* the bridge and the request that it was */
    size_t setup;  /* octets of rb_setup's deepest call */
};

/* Plays every request of the bridges, each also on a damaged block, cut, and with octets after its end. */
struct depth stack_depth(const struct bridge *bridges, size_t count);

#endif
