/* The table, or a wrong copy of it, compared with what the archive answers. */
#ifndef COMPARE_H
#define COMPARE_H

#include "findings.h"

/* The least and the greatest number, or length, that an object was seen with on any bridge. */
struct seen {
    uint32_t low, high;
};

/* By get: one row, on one bridge. */
void compare_reads(struct findings *findings, const struct bridge *bridge, const struct object *object,
                   struct seen *seen);

/* By set: one row, on one bridge. A timer is written with the other two of the table. */
void compare_writes(struct findings *findings, const struct bridge *bridge, const struct object *rows,
                    const struct object *object);

/* By the check of a batch: one row beside all others, on one bridge. */
void compare_group(struct findings *findings, const struct bridge *bridge, const struct object *rows,
                   const struct object *object);

/* By get-next: a walk over the bridge gives the instances of the table's rows, with their values, and no others. */
void compare_walk(struct findings *findings, const struct bridge *bridge, const struct object *rows);

/* True where the rows' names ascend. */
bool rows_ascend(const struct object *rows);

#endif
