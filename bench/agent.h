/* Agents behind a UDP port of this machine: net-snmp's snmpd, and the library's (host/agent). */
#ifndef BENCH_AGENT_H
#define BENCH_AGENT_H

#include <stdbool.h>
#include <stddef.h>
#include <stdint.h>
#include <sys/types.h>

#include "workload.h"

enum { DATAGRAM_MAX = 1500 };

struct datagram {
    uint8_t octets[DATAGRAM_MAX];
    size_t length;
};

struct agent {
    pid_t process; /* whose processor time is read */
    int socket;    /* connected to the agent */
};

/* An SNMPv2c get or get-next for one or sixteen counters of the agent's own snmp group, with the community public.
 * These are numbers that snmpd holds itself: it needs to ask nothing of the system for them. */
struct datagram snmp_request(enum rb_kind kind, unsigned bindings);

/* A request in the library's message form as an SNMPv2c datagram, with the community public. */
struct datagram as_datagram(const struct octets *request);

/* True for an SNMPv2c response without a fault. */
bool snmp_answered(const struct datagram *answer);

/* Connects to a port of this machine. */
struct agent connect_agent(pid_t process, uint16_t port);

/* Starts the library's agent, which is this program, on a bridge, and connects to it. */
struct agent start_agent(const char *program, const struct bridge *bridge);
void stop_agent(const struct agent *agent);

/* Sends a request and waits for the answer, up to two seconds; false where none came. */
bool round_trip(const struct agent *agent, const uint8_t *request, size_t length, struct datagram *answer);

/* The nanoseconds that the agent's process has run so far, or 0 where the system does not tell. */
uint64_t processor_time(const struct agent *agent);

#endif
