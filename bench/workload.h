/* The bridges that are measured, and what each one is asked. */
#ifndef BENCH_WORKLOAD_H
#define BENCH_WORKLOAD_H

#include <stdbool.h>

#include "requests.h"

enum { BRIDGES = 4, WORKLOADS = 12, TURNS = 2 };

/* One request, or two that are asked in turn: a set alternates between two contents, so that each call changes the
 * block and finds as much to do as the call before. */
struct workload {
    const char *title;
    enum rb_kind kind;
    unsigned bindings;
    unsigned turns;
    struct octets asked[TURNS];
};

struct bridge {
    const char *title;
    uint32_t ports;
    bool full; /* 256 VLAN rows and 256 static rows, else fresh */
    uint8_t block[RB_BLOCK_SIZE];
    struct workload workloads[WORKLOADS];
};

/* Sets up a bridge, fills its tables if they are to be full, and writes its requests. */
void make_bridge(struct bridge *bridge, const char *title, uint32_t ports, bool full);

/* VLAN row i of a full bridge; row 0 is the one that a fresh bridge has. */
uint32_t vlan_id(uint32_t i);

/* The index of a static row of a full bridge, and how many sub-ids it has. */
size_t put_static_index(uint32_t *index, uint32_t row, uint32_t ports);

#endif
