/* One command while it is played: what is printed of it, and its expected answers. */
#ifndef HOST_TRANSCRIPT_H
#define HOST_TRANSCRIPT_H

#include "expected.h"
#include "outcome.h"
#include "player.h"
#include "script.h"

struct turn {
    struct player *player;
    const struct script *script;
    struct line line; /* the command's */
    struct command command;
    struct place answers; /* the line after the command */
    struct place next;    /* from here on, no expected binding has been compared yet */
    size_t bindings;      /* expected bindings that were compared */
    size_t more;          /* bindings after the last expected one */
    size_t differences;   /* of this command */
    bool expects;         /* an expected answer stands after the command */
    bool shown;           /* the command has been printed */
};

/* Starts the turn of a command that was read at this line; `after` is the place after it. */
void turn_start(struct turn *turn, struct place after);

/* Prints a binding of the answer, and compares it with the next expected one. */
void turn_binding(struct turn *turn, const struct binding *binding);

/* Prints the outcome, and compares it with the expected answers that are left. `remark` is printed after it as a
 * comment where it is not NULL. */
void turn_end(struct turn *turn, const struct outcome *outcome, const struct name *remark);

/* Prints the octets of an answer. */
void turn_octets(struct turn *turn, const uint8_t *octets, size_t count);

/* Counts and prints a flaw: what no call may do, whatever was expected. */
void turn_flaw(struct turn *turn, const char *flaw);

/* Says how many differences were counted and not printed: a command's first ones are. */
void turn_finish(struct turn *turn);

#endif
