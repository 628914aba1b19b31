#include "bridges.h"

#include "../archive/requests.h"

enum { PRIORITIES = 8, STATICS = 2, PAIRS = 2, VLANS_IN_A_SET = 16, OCTET_MAX = 255 };

/* What the rows are made with. */
enum { CREATE_AND_GO = 4, ACTIVE = 1, DESTROY = 6, PERMANENT = 3, PAIR_NUMBER = 5, PAIR_ENABLED = 1 };

static const uint8_t address[RB_ADDRESS_SIZE] = {2, 0, 0, 0, 1, 254};

struct value number_value(uint8_t tag, uint32_t number)
{
    struct value value = {.tag = tag, .count = 4};

    for (int i = 0; i < 4; i++) {
        value.octets[i] = (uint8_t)(number >> (24 - 8 * i));
    }
    return value;
}

struct value string_value(size_t count)
{
    return (struct value){.tag = RB_TAG_STRING, .count = count};
}

/* The port set of all ports or of none, as it is read. */
static struct value ports_value(const struct bridge *bridge, bool all)
{
    struct value value = string_value((bridge->ports + 7) / 8);

    for (uint32_t p = 0; all && p < bridge->ports; p++) {
        value.octets[p / 8] |= (uint8_t)(0x80 >> p % 8);
    }
    return value;
}

static void play(struct bridge *bridge, const struct octets *request)
{
    uint8_t room[RB_MESSAGE_MAX];
    rb_result got = rb_answer(bridge->block, RB_BLOCK_SIZE, request->at, request->count, room, sizeof room);

    REQUIRE(got.number == RB_ANSWERED && room[STATUS_AT] == RB_NO_ERROR,
            "rows are not made, %u ports: number %u, status %u, index %u", bridge->ports, got.number, room[STATUS_AT],
            room[INDEX_AT]);
}

/* VLANs from 1 on, and the last one. */
static uint32_t vlan_at(const struct bridge *bridge, size_t number)
{
    return number + 1 == bridge->vlans ? VLAN_MAX : (uint32_t)number + 1;
}

/* Set-up has made VLAN 1. The last VLAN differs from it in its egress ports alone. */
static void make_vlans(struct bridge *bridge)
{
    struct value all = ports_value(bridge, true);
    struct octets request;

    request_start(&request, RB_SET, 1);
    if (bridge->vlans == 0) {
        put_number(&request, "dot1qVlanStaticRowStatus", INDEX(1), DESTROY);
        play(bridge, &request);
        return;
    }
    for (size_t i = 1; i < bridge->vlans; i++) {
        put_number(&request, "dot1qVlanStaticRowStatus", INDEX(vlan_at(bridge, i)), CREATE_AND_GO);
        if (i % VLANS_IN_A_SET == 0) {
            play(bridge, &request);
            request_start(&request, RB_SET, 1);
        }
    }
    put_string(&request, "dot1qVlanStaticUntaggedPorts", INDEX(VLAN_MAX), all.octets, all.count);
    play(bridge, &request);
}

/* The first and the last static row that can be. */
static void make_statics(struct bridge *bridge)
{
    uint32_t index[INDEX_SUBS_MAX];
    struct octets request;

    request_start(&request, RB_SET, 1);
    for (size_t i = 0; i < STATICS; i++) {
        index_at(bridge, BY_STATIC, i, index);
        put_number(&request, "dot1dStaticStatus", index, INDEX_SUBS_MAX, PERMANENT);
    }
    play(bridge, &request);
}

/* The first and the last pair that can be. */
static void make_pairs(struct bridge *bridge)
{
    uint32_t index[INDEX_SUBS_MAX];
    struct octets request;

    request_start(&request, RB_SET, 1);
    for (size_t i = 0; i < index_count(bridge, BY_PORT_PAIR); i++) {
        index_at(bridge, BY_PORT_PAIR, i, index);
        put_number(&request, "dot1dPortPairBridgeNum", index, 2, PAIR_NUMBER);
        put_number(&request, "dot1dPortPairBridgeState", index, 2, PAIR_ENABLED);
    }
    play(bridge, &request);
}

static void prepare(struct bridge *bridge)
{
    rb_result got = rb_setup(bridge->block, RB_BLOCK_SIZE, bridge->ports, bridge->edition, bridge->device, address,
                             sizeof address);

    REQUIRE(got.number == RB_ANSWERED, "set-up of %u ports: number %u", bridge->ports, got.number);
    if (bridge->device == RB_DEVICE_SOURCE_ROUTING) {
        make_pairs(bridge);
    } else {
        make_vlans(bridge);
        make_statics(bridge);
    }
}

void bridges_prepare(struct bridge bridges[BRIDGES])
{
    static const uint32_t sizes[] = {1, 8, 9, 63, RB_PORTS_MAX};
    size_t count = 0;

    for (uint32_t device = RB_DEVICE_TRANSPARENT; device <= RB_DEVICE_SOURCE_ROUTING; device++) {
        for (uint32_t edition = RB_EDITION_OLD; edition <= RB_EDITION_NEW; edition++) {
            for (size_t i = 0; i < sizeof sizes / sizeof sizes[0]; i++) {
                bridges[count++] = (struct bridge){sizes[i], edition, device, 2, {0}};
            }
        }
    }
    bridges[count++] = (struct bridge){9, RB_EDITION_NEW, RB_DEVICE_TRANSPARENT, 0, {0}};
    bridges[count++] = (struct bridge){9, RB_EDITION_NEW, RB_DEVICE_TRANSPARENT, 256, {0}};
    REQUIRE(count == BRIDGES, "%zu bridges", count);
    for (size_t i = 0; i < BRIDGES; i++) {
        prepare(&bridges[i]);
    }
}

size_t index_count(const struct bridge *bridge, enum object_index shape)
{
    bool routing = bridge->device == RB_DEVICE_SOURCE_ROUTING;

    switch (shape) {
    case BY_PORT:
        return bridge->ports;
    case BY_PORT_AND_PRIORITY:
        return (size_t)bridge->ports * PRIORITIES;
    case BY_VLAN:
        return routing ? 0 : bridge->vlans;
    case BY_STATIC:
        return routing ? 0 : STATICS;
    case BY_PORT_PAIR:
        return routing && bridge->ports > 1 ? PAIRS : 0;
    default:
        return 1;
    }
}

void index_at(const struct bridge *bridge, enum object_index shape, size_t number, uint32_t index[INDEX_SUBS_MAX])
{
    switch (shape) {
    case BY_PORT:
        index[0] = (uint32_t)number + 1;
        break;
    case BY_PORT_AND_PRIORITY:
        index[0] = (uint32_t)number / PRIORITIES + 1;
        index[1] = (uint32_t)number % PRIORITIES;
        break;
    case BY_VLAN:
        index[0] = vlan_at(bridge, number);
        break;
    case BY_STATIC:
        for (size_t i = 0; i < RB_ADDRESS_SIZE; i++) {
            index[i] = number == 0 ? 0 : OCTET_MAX;
        }
        index[RB_ADDRESS_SIZE] = number == 0 ? 0 : bridge->ports;
        break;
    case BY_PORT_PAIR:
        index[0] = number == 0 ? 1 : bridge->ports - 1;
        index[1] = index[0] + 1;
        break;
    default:
        index[0] = 0;
    }
}

static uint32_t number_of(const struct bridge *bridge, const struct object *object, const uint32_t *index)
{
    switch (object->source) {
    case FROM_CELL:
        return object->index == BY_PORT_AND_PRIORITY ? object->fresh >> 4 * index[1] & 15 : object->fresh;
    case FROM_RANGE:
        return object->low;
    case FROM_PORT_COUNT:
        return bridge->ports;
    case FROM_DEVICE_TYPE:
        return bridge->device == RB_DEVICE_SOURCE_ROUTING ? 3 : 2;
    case FROM_VLAN_COUNT:
        return bridge->vlans;
    case FROM_VLAN_DELETES:
        return bridge->vlans == 0 ? 1 : 0;
    case FROM_INDEX_FIRST:
        return index[0];
    case FROM_INDEX_LAST:
        return index[object_index_subs(object) - 1];
    case FROM_VLAN_STATUS:
        return ACTIVE;
    case FROM_STATIC_STATUS:
        return PERMANENT;
    case FROM_PAIR_NUMBER:
        return PAIR_NUMBER;
    default:
        return PAIR_ENABLED;
    }
}

struct value value_of(const struct bridge *bridge, const struct object *object, const uint32_t *index)
{
    struct value value = string_value(RB_ADDRESS_SIZE);

    switch (object->source) {
    case FROM_BRIDGE_ADDRESS:
        memcpy(value.octets, address, sizeof address);
        return value;
    case FROM_INDEX_ADDRESS:
        for (size_t i = 0; i < RB_ADDRESS_SIZE; i++) {
            value.octets[i] = (uint8_t)index[i];
        }
        return value;
    case FROM_VLAN_NAME:
        return string_value(0);
    case FROM_VLAN_EGRESS:
        return ports_value(bridge, index[0] == 1);
    case FROM_VLAN_FORBIDDEN:
        return ports_value(bridge, false);
    case FROM_VLAN_UNTAGGED:
        return ports_value(bridge, index[0] == 1 || index[0] == VLAN_MAX);
    case FROM_STATIC_PORTS:
        return ports_value(bridge, true);
    default:
        return number_value(object_tag(object), number_of(bridge, object, index));
    }
}
