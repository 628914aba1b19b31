/* The objects that the reference bridge plays, by their names in BRIDGE-MIB, P-BRIDGE-MIB, Q-BRIDGE-MIB and the MIB of
 * source-routing bridges. */
#ifndef HOST_OBJECTS_H
#define HOST_OBJECTS_H

#include <stdbool.h>
#include <stddef.h>
#include <stdint.h>

#include "text.h"

/* What the sub-ids after an object's own are: a 0, a port, a port and a priority, a VLAN, an address and a port, or two
 * ports, the lower one first. */
enum object_index { SCALAR, BY_PORT, BY_PORT_AND_PRIORITY, BY_VLAN, BY_STATIC, BY_PORT_PAIR };
#define INDEX_SUBS_MAX 7

/* Objects of one group share their rows: the columns of a table, and the three timers of the bridge. Two messages of a
 * batch may not name one row. Any other scalar is alone. */
enum object_group {
    ALONE,
    PORT_TABLE,
    STP_PORT_TABLE,
    SR_PORT_TABLE,
    PAIR_TABLE,
    STATIC_TABLE,
    PRIORITY_TABLE,
    REGEN_TABLE,
    CLASS_TABLE,
    VLAN_TABLE,
    PORT_VLAN_TABLE,
    BRIDGE_TIMERS
};

/* The type of an object's values. A frame is an integer, one of 64 numbers. Ports, octets and text are strings; octets
 * and text differ only in how they are shown. A table is no object: it has a name and no values. */
enum object_type {
    TYPE_INTEGER,
    TYPE_FRAME,
    TYPE_UNSIGNED,
    TYPE_COUNTER,
    TYPE_PORTS,
    TYPE_OCTETS,
    TYPE_TEXT,
    TYPE_TABLE
};

enum object_access { READ_ONLY, WRITABLE };

/* Where the value of an instance comes from: a cell of the block; the one number of the range; the bridge as a whole;
 * the first or the last sub-id of the index, or the address in it; a column of the row that has the index. */
enum object_source {
    FROM_CELL,
    FROM_RANGE,
    FROM_PORT_COUNT,
    FROM_DEVICE_TYPE,
    FROM_BRIDGE_ADDRESS,
    FROM_VLAN_COUNT,
    FROM_VLAN_DELETES,
    FROM_INDEX_FIRST,
    FROM_INDEX_LAST,
    FROM_INDEX_ADDRESS,
    FROM_VLAN_NAME,
    FROM_VLAN_EGRESS,
    FROM_VLAN_FORBIDDEN,
    FROM_VLAN_UNTAGGED,
    FROM_VLAN_STATUS,
    FROM_STATIC_PORTS,
    FROM_STATIC_STATUS,
    FROM_PAIR_NUMBER,
    FROM_PAIR_STATE
};

/* The device of an object that every device has; else one of enum rb_device. */
#define EVERY_DEVICE 0u

#define OBJECT_SUBS_MAX 6
struct object {
    const char *name;
    uint8_t count; /* sub-ids after 1.3.6.1.2.1.17 */
    uint8_t sub[OBJECT_SUBS_MAX];
    enum object_index index;
    uint32_t device;
    enum object_group group;
    enum object_type type;
    enum object_access access;
    uint32_t low, high; /* of its numbers, or of a string's length in octets */
    uint32_t step;      /* in edition 2 its numbers are multiples of this */
    enum object_source source;
    uint32_t fresh; /* value of a cell after set-up; BY_PORT_AND_PRIORITY, a hexadecimal digit for each priority */
};

/* All names are under this one, 1.3.6.1.2.1.17. */
#define BRIDGE_SUBS 7
extern const uint32_t bridge_name[BRIDGE_SUBS];

/* The objects in ascending order from 0 on, as crates/names/src/table.rt has them, or NULL after the last. */
#define OBJECT_COUNT 40u
const struct object *object_at(size_t number);

/* The object or table of a name, or NULL. */
const struct object *object_by_name(struct text name);

/* The object whose name is a prefix of these sub-ids, or NULL. */
const struct object *object_by_number(const uint32_t *sub, size_t count);

/* The table that has the object as a column; of a scalar, dot1dBridge. */
const struct object *object_table(const struct object *object);

/* The tag of an object's values, one of enum rb_tag. */
uint8_t object_tag(const struct object *object);

/* How many sub-ids the index of an instance has. */
size_t object_index_subs(const struct object *object);

/* True where a bridge of that device, one of enum rb_device, has the object or table. */
bool object_is_of(const struct object *object, uint32_t device);

/* True where the object has that number as a value on a bridge of that edition and device; of a string, the number is
 * its length. */
bool object_takes(const struct object *object, uint32_t edition, uint32_t device, uint32_t number);

/* The sub-ids of an instance: the bridge's, the object's own, the index. Returns how many they are. */
size_t object_instance(const struct object *object, const uint32_t *index, size_t count, uint32_t *sub);

#endif
