/* A night: each case on the reference and on the switch, its verdict in the journal. */
#ifndef NIGHT_RUN_H
#define NIGHT_RUN_H

#include "link.h"
#include "plan.h"
#include "record.h"

struct options {
    const char *journal;
    const char *until; /* HH:MM, or NULL */
    const char *fresh; /* a command that makes the switch fresh, or NULL */
    int wait;          /* seconds that a silent switch is probed */
};

/* Runs the cases that have not run, and notes why it stops before the last. False where the journal cannot be written.
 */
bool run_cases(struct record *record, const struct plan *plan, struct link *link, const struct options *options,
               struct complaint *why);

#endif
