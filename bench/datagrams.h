/* A get that comes as an SNMPv2c datagram: read, answered and written, measured. */
#ifndef BENCH_DATAGRAMS_H
#define BENCH_DATAGRAMS_H

#include "workload.h"

/* What snmpd's own process takes for a get, in nanoseconds; 0 where it was not asked. */
struct own_times {
    double one;     /* binding */
    double sixteen; /* bindings */
};

/* Prints what reading, answering and writing take for gets of 1 and of 16 bindings, beside snmpd's own time, and how far down the stack the calls for
 * datagrams go. */
void print_datagrams(const struct bridge *bridges, size_t count, struct own_times snmpd);

#endif
