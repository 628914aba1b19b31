/* The bridges that are asked: of both devices and editions, with few and many ports, and with known rows in the growing
 * tables, so that every instance and its value are known. */
#ifndef BRIDGES_H
#define BRIDGES_H

#include "objects.h"
#include "refbridge.h"
#include "values.h"

struct bridge {
    uint32_t ports;
    uint32_t edition;
    uint32_t device;
    uint32_t vlans; /* rows of the VLAN table: 0, 2 (the first and the last VLAN) or 256 */
    uint8_t block[RB_BLOCK_SIZE];
};

#define BRIDGES 22u
#define VLAN_MAX 4094u

/* Sets up every bridge and makes its rows. */
void bridges_prepare(struct bridge bridges[BRIDGES]);

/* How many indexes of this shape the bridge has, and those indexes, ascending. */
size_t index_count(const struct bridge *bridge, enum object_index shape);
void index_at(const struct bridge *bridge, enum object_index shape, size_t number, uint32_t index[INDEX_SUBS_MAX]);

/* The value that the object's row says of an instance. */
struct value value_of(const struct bridge *bridge, const struct object *object, const uint32_t *index);

/* A number, and a string of that many octets 0. */
struct value number_value(uint8_t tag, uint32_t number);
struct value string_value(size_t count);

#endif
