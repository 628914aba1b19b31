#include "objects.h"

#include <string.h>

#include "refbridge.h"

#define TRANSPARENT RB_DEVICE_TRANSPARENT
#define SOURCE_ROUTING RB_DEVICE_SOURCE_ROUTING

/* The sub-ids of a name, and how many they are before them. */
#define ID(...) sizeof((uint8_t[]){__VA_ARGS__}), {__VA_ARGS__}
#define NO_VALUES TYPE_TABLE, READ_ONLY, 0, 0, 1, FROM_RANGE, 0

/* dot1dBaseType of each device: transparent-only and sourceroute-only. */
enum { TYPE_TRANSPARENT_ONLY = 2, TYPE_SOURCEROUTE_ONLY = 3 };

/* The one number of a RowStatus that is neither written nor read. */
enum { ROW_NOT_READY = 3 };

const uint32_t bridge_name[BRIDGE_SUBS] = {1, 3, 6, 1, 2, 1, 17};

/* A row: the name, its sub-ids, index, device and group; then type, access, low, high, step, source and fresh value. */
static const struct object objects[OBJECT_COUNT] = {
    {"dot1dBaseBridgeAddress", ID(1, 1), SCALAR, EVERY_DEVICE, ALONE,
     TYPE_OCTETS, READ_ONLY, 6, 6, 1, FROM_BRIDGE_ADDRESS, 0},
    {"dot1dBaseNumPorts", ID(1, 2), SCALAR, EVERY_DEVICE, ALONE,
     TYPE_INTEGER, READ_ONLY, 1, 64, 1, FROM_PORT_COUNT, 0},
    {"dot1dBaseType", ID(1, 3), SCALAR, EVERY_DEVICE, ALONE,
     TYPE_INTEGER, READ_ONLY, 2, 3, 1, FROM_DEVICE_TYPE, 0},
    {"dot1dBasePort", ID(1, 4, 1, 1), BY_PORT, EVERY_DEVICE, PORT_TABLE,
     TYPE_INTEGER, READ_ONLY, 1, 64, 1, FROM_INDEX_FIRST, 0},
    {"dot1dBasePortIfIndex", ID(1, 4, 1, 2), BY_PORT, EVERY_DEVICE, PORT_TABLE,
     TYPE_INTEGER, READ_ONLY, 1, 64, 1, FROM_INDEX_FIRST, 0},
    {"dot1dStpPriority", ID(2, 2), SCALAR, TRANSPARENT, ALONE,
     TYPE_INTEGER, WRITABLE, 0, 65535, 4096, FROM_CELL, 32768},
    {"dot1dStpBridgeMaxAge", ID(2, 12), SCALAR, TRANSPARENT, BRIDGE_TIMERS,
     TYPE_INTEGER, WRITABLE, 600, 4000, 1, FROM_CELL, 2000},
    {"dot1dStpBridgeHelloTime", ID(2, 13), SCALAR, TRANSPARENT, BRIDGE_TIMERS,
     TYPE_INTEGER, WRITABLE, 100, 1000, 1, FROM_CELL, 200},
    {"dot1dStpBridgeForwardDelay", ID(2, 14), SCALAR, TRANSPARENT, BRIDGE_TIMERS,
     TYPE_INTEGER, WRITABLE, 400, 3000, 1, FROM_CELL, 1500},
    {"dot1dStpPort", ID(2, 15, 1, 1), BY_PORT, TRANSPARENT, STP_PORT_TABLE,
     TYPE_INTEGER, READ_ONLY, 1, 64, 1, FROM_INDEX_FIRST, 0},
    {"dot1dStpPortPriority", ID(2, 15, 1, 2), BY_PORT, TRANSPARENT, STP_PORT_TABLE,
     TYPE_INTEGER, WRITABLE, 0, 255, 16, FROM_CELL, 128},
    {"dot1dStpPortEnable", ID(2, 15, 1, 4), BY_PORT, TRANSPARENT, STP_PORT_TABLE,
     TYPE_INTEGER, WRITABLE, 1, 2, 1, FROM_CELL, 1},
    {"dot1dStpPortPathCost", ID(2, 15, 1, 5), BY_PORT, TRANSPARENT, STP_PORT_TABLE,
     TYPE_INTEGER, WRITABLE, 1, 65535, 1, FROM_CELL, 100},
    {"dot1dSrPortLargestFrame", ID(3, 1, 1, 6), BY_PORT, SOURCE_ROUTING, SR_PORT_TABLE,
     TYPE_FRAME, WRITABLE, 516, 65535, 1, FROM_CELL, 1470},
    {"dot1dPortPairLowPort", ID(3, 5, 1, 1), BY_PORT_PAIR, SOURCE_ROUTING, PAIR_TABLE,
     TYPE_INTEGER, READ_ONLY, 1, 64, 1, FROM_INDEX_FIRST, 0},
    {"dot1dPortPairHighPort", ID(3, 5, 1, 2), BY_PORT_PAIR, SOURCE_ROUTING, PAIR_TABLE,
     TYPE_INTEGER, READ_ONLY, 1, 64, 1, FROM_INDEX_LAST, 0},
    {"dot1dPortPairBridgeNum", ID(3, 5, 1, 3), BY_PORT_PAIR, SOURCE_ROUTING, PAIR_TABLE,
     TYPE_INTEGER, WRITABLE, 0, 15, 1, FROM_PAIR_NUMBER, 0},
    {"dot1dPortPairBridgeState", ID(3, 5, 1, 4), BY_PORT_PAIR, SOURCE_ROUTING, PAIR_TABLE,
     TYPE_INTEGER, WRITABLE, 1, 3, 1, FROM_PAIR_STATE, 0},
    {"dot1dTpAgingTime", ID(4, 2), SCALAR, TRANSPARENT, ALONE,
     TYPE_INTEGER, WRITABLE, 10, 1000000, 1, FROM_CELL, 300},
    {"dot1dStaticAddress", ID(5, 1, 1, 1), BY_STATIC, TRANSPARENT, STATIC_TABLE,
     TYPE_OCTETS, READ_ONLY, 6, 6, 1, FROM_INDEX_ADDRESS, 0},
    {"dot1dStaticReceivePort", ID(5, 1, 1, 2), BY_STATIC, TRANSPARENT, STATIC_TABLE,
     TYPE_INTEGER, READ_ONLY, 0, 64, 1, FROM_INDEX_LAST, 0},
    {"dot1dStaticAllowedToGoTo", ID(5, 1, 1, 3), BY_STATIC, TRANSPARENT, STATIC_TABLE,
     TYPE_PORTS, WRITABLE, 0, 8, 1, FROM_STATIC_PORTS, 0},
    {"dot1dStaticStatus", ID(5, 1, 1, 4), BY_STATIC, TRANSPARENT, STATIC_TABLE,
     TYPE_INTEGER, WRITABLE, 2, 5, 1, FROM_STATIC_STATUS, 0},
    {"dot1dPortDefaultUserPriority", ID(6, 1, 2, 1, 1, 1), BY_PORT, TRANSPARENT, PRIORITY_TABLE,
     TYPE_INTEGER, WRITABLE, 0, 7, 1, FROM_CELL, 0},
    {"dot1dPortNumTrafficClasses", ID(6, 1, 2, 1, 1, 2), BY_PORT, TRANSPARENT, PRIORITY_TABLE,
     TYPE_INTEGER, READ_ONLY, 8, 8, 1, FROM_RANGE, 0},
    {"dot1dRegenUserPriority", ID(6, 1, 2, 2, 1, 2), BY_PORT_AND_PRIORITY, TRANSPARENT, REGEN_TABLE,
     TYPE_INTEGER, WRITABLE, 0, 7, 1, FROM_CELL, 0x76543210},
    {"dot1dTrafficClass", ID(6, 1, 2, 3, 1, 2), BY_PORT_AND_PRIORITY, TRANSPARENT, CLASS_TABLE,
     TYPE_INTEGER, WRITABLE, 0, 7, 1, FROM_CELL, 0x76543102},
    {"dot1qVlanVersionNumber", ID(7, 1, 1, 1), SCALAR, TRANSPARENT, ALONE,
     TYPE_INTEGER, READ_ONLY, 1, 1, 1, FROM_RANGE, 0},
    {"dot1qMaxVlanId", ID(7, 1, 1, 2), SCALAR, TRANSPARENT, ALONE,
     TYPE_INTEGER, READ_ONLY, 4094, 4094, 1, FROM_RANGE, 0},
    {"dot1qMaxSupportedVlans", ID(7, 1, 1, 3), SCALAR, TRANSPARENT, ALONE,
     TYPE_UNSIGNED, READ_ONLY, 256, 256, 1, FROM_RANGE, 0},
    {"dot1qNumVlans", ID(7, 1, 1, 4), SCALAR, TRANSPARENT, ALONE,
     TYPE_UNSIGNED, READ_ONLY, 0, 256, 1, FROM_VLAN_COUNT, 0},
    {"dot1qVlanNumDeletes", ID(7, 1, 4, 1), SCALAR, TRANSPARENT, ALONE,
     TYPE_COUNTER, READ_ONLY, 0, UINT32_MAX, 1, FROM_VLAN_DELETES, 0},
    {"dot1qVlanStaticName", ID(7, 1, 4, 3, 1, 1), BY_VLAN, TRANSPARENT, VLAN_TABLE,
     TYPE_TEXT, WRITABLE, 0, 32, 1, FROM_VLAN_NAME, 0},
    {"dot1qVlanStaticEgressPorts", ID(7, 1, 4, 3, 1, 2), BY_VLAN, TRANSPARENT, VLAN_TABLE,
     TYPE_PORTS, WRITABLE, 0, 8, 1, FROM_VLAN_EGRESS, 0},
    {"dot1qVlanForbiddenEgressPorts", ID(7, 1, 4, 3, 1, 3), BY_VLAN, TRANSPARENT, VLAN_TABLE,
     TYPE_PORTS, WRITABLE, 0, 8, 1, FROM_VLAN_FORBIDDEN, 0},
    {"dot1qVlanStaticUntaggedPorts", ID(7, 1, 4, 3, 1, 4), BY_VLAN, TRANSPARENT, VLAN_TABLE,
     TYPE_PORTS, WRITABLE, 0, 8, 1, FROM_VLAN_UNTAGGED, 0},
    {"dot1qVlanStaticRowStatus", ID(7, 1, 4, 3, 1, 5), BY_VLAN, TRANSPARENT, VLAN_TABLE,
     TYPE_INTEGER, WRITABLE, 1, 6, 1, FROM_VLAN_STATUS, 0},
    {"dot1qPvid", ID(7, 1, 4, 5, 1, 1), BY_PORT, TRANSPARENT, PORT_VLAN_TABLE,
     TYPE_UNSIGNED, WRITABLE, 1, 4094, 1, FROM_CELL, 1},
    {"dot1qPortAcceptableFrameTypes", ID(7, 1, 4, 5, 1, 2), BY_PORT, TRANSPARENT, PORT_VLAN_TABLE,
     TYPE_INTEGER, WRITABLE, 1, 2, 1, FROM_CELL, 1},
    {"dot1qPortIngressFiltering", ID(7, 1, 4, 5, 1, 3), BY_PORT, TRANSPARENT, PORT_VLAN_TABLE,
     TYPE_INTEGER, WRITABLE, 1, 2, 1, FROM_CELL, 2},
};

static const struct object tables[] = {
    [ALONE] = {"dot1dBridge", 0, {0}, SCALAR, EVERY_DEVICE, ALONE, NO_VALUES},
    [PORT_TABLE] = {"dot1dBasePortTable", ID(1, 4), SCALAR, EVERY_DEVICE, PORT_TABLE, NO_VALUES},
    [STP_PORT_TABLE] = {"dot1dStpPortTable", ID(2, 15), SCALAR, TRANSPARENT, STP_PORT_TABLE, NO_VALUES},
    [SR_PORT_TABLE] = {"dot1dSrPortTable", ID(3, 1), SCALAR, SOURCE_ROUTING, SR_PORT_TABLE, NO_VALUES},
    [PAIR_TABLE] = {"dot1dPortPairTable", ID(3, 5), SCALAR, SOURCE_ROUTING, PAIR_TABLE, NO_VALUES},
    [STATIC_TABLE] = {"dot1dStaticTable", ID(5, 1), SCALAR, TRANSPARENT, STATIC_TABLE, NO_VALUES},
    [PRIORITY_TABLE] = {"dot1dPortPriorityTable", ID(6, 1, 2, 1), SCALAR, TRANSPARENT, PRIORITY_TABLE, NO_VALUES},
    [REGEN_TABLE] = {"dot1dUserPriorityRegenTable", ID(6, 1, 2, 2), SCALAR, TRANSPARENT, REGEN_TABLE, NO_VALUES},
    [CLASS_TABLE] = {"dot1dTrafficClassTable", ID(6, 1, 2, 3), SCALAR, TRANSPARENT, CLASS_TABLE, NO_VALUES},
    [VLAN_TABLE] = {"dot1qVlanStaticTable", ID(7, 1, 4, 3), SCALAR, TRANSPARENT, VLAN_TABLE, NO_VALUES},
    [PORT_VLAN_TABLE] = {"dot1qPortVlanTable", ID(7, 1, 4, 5), SCALAR, TRANSPARENT, PORT_VLAN_TABLE, NO_VALUES},
};

#define TABLE_COUNT (sizeof tables / sizeof tables[0])

const struct object *object_at(size_t number)
{
    return number < OBJECT_COUNT ? &objects[number] : NULL;
}

static const struct object *find_name(const struct object *rows, size_t count, struct text name)
{
    for (size_t i = 0; i < count; i++) {
        if (text_is(name, rows[i].name)) {
            return &rows[i];
        }
    }
    return NULL;
}

const struct object *object_by_name(struct text name)
{
    const struct object *object = find_name(objects, OBJECT_COUNT, name);

    return object != NULL ? object : find_name(tables, TABLE_COUNT, name);
}

static bool is_prefix(const struct object *object, const uint32_t *sub, size_t count)
{
    if (count < BRIDGE_SUBS + (size_t)object->count) {
        return false;
    }
    for (size_t i = 0; i < BRIDGE_SUBS; i++) {
        if (sub[i] != bridge_name[i]) {
            return false;
        }
    }
    for (size_t i = 0; i < object->count; i++) {
        if (sub[BRIDGE_SUBS + i] != object->sub[i]) {
            return false;
        }
    }
    return true;
}

const struct object *object_by_number(const uint32_t *sub, size_t count)
{
    for (size_t i = 0; i < OBJECT_COUNT; i++) {
        if (is_prefix(&objects[i], sub, count)) {
            return &objects[i];
        }
    }
    return NULL;
}

const struct object *object_table(const struct object *object)
{
    return &tables[object->index == SCALAR ? ALONE : object->group];
}

uint8_t object_tag(const struct object *object)
{
    static const uint8_t tags[] = {
        [TYPE_INTEGER] = RB_TAG_INTEGER, [TYPE_FRAME] = RB_TAG_INTEGER, [TYPE_UNSIGNED] = RB_TAG_UNSIGNED,
        [TYPE_COUNTER] = RB_TAG_COUNTER, [TYPE_PORTS] = RB_TAG_STRING, [TYPE_OCTETS] = RB_TAG_STRING,
        [TYPE_TEXT] = RB_TAG_STRING,     [TYPE_TABLE] = RB_TAG_NULL,
    };

    return tags[object->type];
}

size_t object_index_subs(const struct object *object)
{
    static const uint8_t subs[] = {
        [SCALAR] = 1,  [BY_PORT] = 1,   [BY_PORT_AND_PRIORITY] = 2,
        [BY_VLAN] = 1, [BY_STATIC] = 7, [BY_PORT_PAIR] = 2,
    };

    return subs[object->index];
}

bool object_is_of(const struct object *object, uint32_t device)
{
    return object->device == EVERY_DEVICE || object->device == device;
}

/* The numbers that IEEE 802.5M has for the largest frame of a port. */
static const uint16_t largest_frames[] = {
    516,   635,   754,   873,   993,   1112,  1231,  1350,  1470,  1542,  1615,  1688,  1761,  1833,  1906,  1979,
    2052,  2345,  2638,  2932,  3225,  3518,  3812,  4105,  4399,  4865,  5331,  5798,  6264,  6730,  7197,  7663,
    8130,  8539,  8949,  9358,  9768,  10178, 10587, 10997, 11407, 12199, 12992, 13785, 14578, 15370, 16163, 16956,
    17749, 20730, 23711, 26693, 29674, 32655, 35637, 38618, 41600, 44591, 47583, 50575, 53567, 56559, 59551, 65535,
};

static bool is_largest_frame(uint32_t number)
{
    for (size_t i = 0; i < sizeof largest_frames / sizeof largest_frames[0]; i++) {
        if (largest_frames[i] == number) {
            return true;
        }
    }
    return false;
}

bool object_takes(const struct object *object, uint32_t edition, uint32_t device, uint32_t number)
{
    if (number < object->low || number > object->high) {
        return false;
    }
    if (edition == RB_EDITION_NEW && number % object->step != 0) {
        return false;
    }
    switch (object->source) {
    case FROM_DEVICE_TYPE:
        return number == (device == RB_DEVICE_SOURCE_ROUTING ? TYPE_SOURCEROUTE_ONLY : TYPE_TRANSPARENT_ONLY);
    case FROM_VLAN_STATUS:
        return number != ROW_NOT_READY;
    default:
        return object->type != TYPE_FRAME || is_largest_frame(number);
    }
}

size_t object_instance(const struct object *object, const uint32_t *index, size_t count, uint32_t *sub)
{
    size_t at = BRIDGE_SUBS;

    memcpy(sub, bridge_name, sizeof bridge_name);
    for (size_t i = 0; i < object->count; i++) {
        sub[at++] = object->sub[i];
    }
    for (size_t i = 0; i < count; i++) {
        sub[at++] = index[i];
    }
    return at;
}
