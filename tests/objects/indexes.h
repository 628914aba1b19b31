/* Indexes by their shape: those that a bridge has, one that it can have, and some that it cannot have. */
#ifndef INDEXES_H
#define INDEXES_H

#include "asking.h"

/* An index that the bridge has. */
struct index right_index(const struct bridge *bridge, const struct object *object, size_t number);

/* An index that the bridge can have, of a row that is absent; false where there is none. */
bool absent_index(const struct bridge *bridge, const struct object *object, struct index *index);

/* Indexes beside the first and the last one that can be, and some with too few and too many sub-ids, among them what
 * objects of other shapes have. */
#define WRONG_INDEXES_MAX 16
size_t wrong_indexes(const struct bridge *bridge, const struct object *object, struct index wrong[WRONG_INDEXES_MAX]);

#endif
