/* The cases of a submission in their order, each one playable on a switch. */
#ifndef HOST_PLAN_H
#define HOST_PLAN_H

#include "submission.h"

struct planned {
    uint32_t id;
    struct text title;
    const struct script *script;
    struct place place; /* after the line that starts the case */
    struct text bridge; /* its first command, where that sets a bridge up; else its `at` is NULL */
};

struct plan {
    struct planned *cases;
    size_t count;
    size_t bridges; /* cases that start with one */
};

/* Lists the cases of a submission that was read, and tells on standard error every command that a switch cannot be
 * asked. Returns how many errors there are. */
size_t plan_make(struct plan *plan, const struct submission *submission, const char *community);

void plan_free(struct plan *plan);

#endif
