/* Questions to the archive about instances of an object. The bridges stay as they were prepared. */
#ifndef ASKING_H
#define ASKING_H

#include "../archive/requests.h"
#include "bridges.h"

/* The rest of a name after the object's own sub-ids, whether an instance can have it or not. */
struct index {
    size_t count;
    uint32_t sub[INDEX_SUBS_MAX + 1];
};

struct name instance_of(const struct object *object, const struct index *index);

/* The one binding that a get or a get-next is answered with. */
struct binding ask(const struct bridge *bridge, uint8_t kind, const struct name *name);

/* Adds the instance with a value to a set. */
void put(struct octets *request, const struct object *object, const struct index *index, const struct value *value);

/* The status that a set is answered with. */
uint8_t status_of(const struct bridge *bridge, const struct octets *request);

/* True where a batch of these two sets is refused because both name one row or scalar. */
bool name_one_row(const struct bridge *bridge, const struct octets *first, const struct octets *second);

#endif
