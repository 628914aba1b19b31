/* Serving: datagrams over UDP and messages over a serial line, answered from one block. */
#ifndef AGENT_SERVE_H
#define AGENT_SERVE_H

#include <stdio.h>

#include "state.h"

#define REFUSALS_MAX 32
#define COMMUNITY_MAX 255

struct agent {
    struct state state;
    char community[COMMUNITY_MAX + 1];
    int socket;     /* or -1 */
    int serial_in;  /* or -1 */
    int serial_out; /* or -1 */
    FILE *log;      /* or NULL */
    size_t received;
    size_t answered;
    size_t strangers; /* of another community */
    size_t refused[REFUSALS_MAX];
    uint8_t console[RB_CONSOLE_SIZE]; /* the serial line's saved state */
};

/* Answers until a signal asks to end, or the serial line ends and there is no socket. False where the state cannot be
 * kept: then the set that changed it is not answered. */
bool serve(struct agent *agent, struct complaint *why);

/* Prints what was received, answered and refused. */
void serve_totals(const struct agent *agent);

#endif
