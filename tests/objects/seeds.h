/* Wrong rows, to show that the comparison finds them. */
#ifndef SEEDS_H
#define SEEDS_H

#include "findings.h"

/* Makes one fact of the row wrong, in the way of that number from 0 on. False after the last way. */
bool make_wrong(struct object *row, enum fact fact, unsigned way);

#endif
