#include "workload.h"

enum { ROWS = 256, NAME_OCTETS = 32, LAST_PRIORITY = 7, FREE_VLANS = 4000 };

/* Sixteen objects over all tables; of each the last instance is asked for. */
static const char *const mixed[RB_BINDINGS_MAX] = {
    "dot1dBaseBridgeAddress",
    "dot1dBaseNumPorts",
    "dot1dStpPriority",
    "dot1dStpPortPathCost",
    "dot1dTpAgingTime",
    "dot1dStaticAddress",
    "dot1dStaticAllowedToGoTo",
    "dot1dStaticStatus",
    "dot1dRegenUserPriority",
    "dot1dTrafficClass",
    "dot1qNumVlans",
    "dot1qVlanNumDeletes",
    "dot1qVlanStaticName",
    "dot1qVlanStaticEgressPorts",
    "dot1qVlanStaticRowStatus",
    "dot1qPvid",
};

/* Sixteen instances that every bridge with four ports has, with a number that each one takes. */
static const struct {
    const char *object;
    uint32_t index, value;
} numbers[RB_BINDINGS_MAX] = {
    {"dot1dStpPriority", 0, 32768},          {"dot1dStpBridgeMaxAge", 0, 2000},  {"dot1dStpBridgeHelloTime", 0, 200},
    {"dot1dStpBridgeForwardDelay", 0, 1500}, {"dot1dTpAgingTime", 0, 300},       {"dot1dStpPortPriority", 1, 128},
    {"dot1dStpPortPriority", 2, 128},        {"dot1dStpPortPriority", 3, 128},   {"dot1dStpPortPriority", 4, 128},
    {"dot1dStpPortPathCost", 1, 100},        {"dot1dStpPortPathCost", 2, 100},   {"dot1dStpPortPathCost", 3, 100},
    {"dot1dStpPortPathCost", 4, 100},        {"dot1dStpPortEnable", 1, 1},       {"dot1dStpPortEnable", 2, 1},
    {"dot1dStpPortEnable", 3, 1},
};

uint32_t vlan_id(uint32_t i)
{
    return 1 + 15 * i;
}

size_t put_static_index(uint32_t *index, uint32_t row, uint32_t ports)
{
    const uint32_t subs[] = {2, 0, row, row * 7 % 256, 0, row / 2, row % (ports + 1)};

    memcpy(index, subs, sizeof subs);
    return sizeof subs / sizeof subs[0];
}

/* The index of the last port, the last VLAN row or the last static row, as the object has it. */
static size_t put_last_index(const struct bridge *bridge, const struct object *object, uint32_t *index)
{
    switch (object->index) {
    case BY_PORT:
        index[0] = bridge->ports;
        return 1;
    case BY_PORT_AND_PRIORITY:
        index[0] = bridge->ports;
        index[1] = LAST_PRIORITY;
        return 2;
    case BY_VLAN:
        index[0] = vlan_id(bridge->full ? ROWS - 1 : 0);
        return 1;
    case BY_STATIC:
        return put_static_index(index, ROWS - 1, bridge->ports);
    default:
        index[0] = 0;
        return 1;
    }
}

static void ask_last(const struct bridge *bridge, struct octets *request, const char *object)
{
    uint32_t index[INDEX_SUBS_MAX];
    struct name name = name_of(object, index, put_last_index(bridge, object_called(object), index));

    ask_for(request, &name);
}

static void put_row_status(struct octets *request, uint32_t vlan, uint32_t status)
{
    put_number(request, "dot1qVlanStaticRowStatus", INDEX(vlan), status);
}

static void play(struct bridge *bridge, const struct octets *request)
{
    uint8_t room[RB_MESSAGE_MAX];
    rb_result got = rb_answer(bridge->block, RB_BLOCK_SIZE, request->at, request->count, room, sizeof room);

    REQUIRE(got.number == RB_ANSWERED && room[STATUS_AT] == RB_NO_ERROR, "%s: number %u, status %u, index %u",
            bridge->title, got.number, room[STATUS_AT], room[INDEX_AT]);
}

/* A row with a name as long as can be, and one port in its Egress. */
static void make_vlan_row(struct bridge *bridge, uint32_t i)
{
    const uint8_t port = (uint8_t)(0x80 >> i % 4);
    char words[NAME_OCTETS + 1];
    struct octets request;

    snprintf(words, sizeof words, "%-32u", (unsigned)vlan_id(i));
    request_start(&request, RB_SET, i);
    if (i > 0) {
        put_row_status(&request, vlan_id(i), 4);
    }
    put_string(&request, "dot1qVlanStaticName", INDEX(vlan_id(i)), words, NAME_OCTETS);
    put_string(&request, "dot1qVlanStaticEgressPorts", INDEX(vlan_id(i)), &port, 1);
    play(bridge, &request);
}

static void make_static_row(struct bridge *bridge, uint32_t i)
{
    uint32_t index[INDEX_SUBS_MAX];
    size_t count = put_static_index(index, i, bridge->ports);
    struct octets request;

    request_start(&request, RB_SET, i);
    put_number(&request, "dot1dStaticStatus", index, count, 3 + i % 3);
    play(bridge, &request);
}

/* Takes the next workload of a bridge. */
static struct workload *add(struct workload **next, const char *title, enum rb_kind kind, unsigned bindings)
{
    struct workload *workload = (*next)++;

    workload->title = title;
    workload->kind = kind;
    workload->bindings = bindings;
    workload->turns = kind == RB_SET ? 2 : 1;
    for (unsigned turn = 0; turn < TURNS; turn++) {
        request_start(&workload->asked[turn], kind, turn);
    }
    return workload;
}

static void add_question(struct bridge *bridge, struct workload **next, const char *title, enum rb_kind kind,
                         const char *object)
{
    ask_last(bridge, &add(next, title, kind, 1)->asked[0], object);
}

static void add_questions(struct bridge *bridge, struct workload **next, const char *title, enum rb_kind kind)
{
    struct workload *workload = add(next, title, kind, RB_BINDINGS_MAX);

    for (size_t i = 0; i < RB_BINDINGS_MAX; i++) {
        ask_last(bridge, &workload->asked[0], mixed[i]);
    }
}

static void add_numbers(struct workload **next, const char *title, size_t first, size_t count)
{
    struct workload *workload = add(next, title, RB_SET, (unsigned)count);

    for (uint32_t turn = 0; turn < TURNS; turn++) {
        for (size_t i = first; i < first + count; i++) {
            put_number(&workload->asked[turn], numbers[i].object, INDEX(numbers[i].index), numbers[i].value + turn);
        }
    }
}

/* Removes rows near the start and makes as many behind the last one; the second turn does the reverse. All rows
 * between them move, and the number of rows stays. */
static void add_exchange(struct workload **next, const char *title, unsigned rows)
{
    struct workload *workload = add(next, title, RB_SET, 2 * rows);

    for (uint32_t turn = 0; turn < TURNS; turn++) {
        for (uint32_t i = 1; i <= rows; i++) {
            put_row_status(&workload->asked[turn], vlan_id(i), turn == 0 ? 6 : 4);
            put_row_status(&workload->asked[turn], FREE_VLANS + i, turn == 0 ? 4 : 6);
        }
    }
}

void make_bridge(struct bridge *bridge, const char *title, uint32_t ports, bool full)
{
    static const uint8_t address[RB_ADDRESS_SIZE] = {0x00, 0x11, 0x22, 0x33, 0x44, 0x55};
    struct workload *next = bridge->workloads;

    bridge->title = title;
    bridge->ports = ports;
    bridge->full = full;
    REQUIRE(rb_setup(bridge->block, RB_BLOCK_SIZE, ports, RB_EDITION_OLD, RB_DEVICE_TRANSPARENT, address, sizeof address).number == RB_ANSWERED,
            "set-up");
    for (uint32_t i = 0; full && i < ROWS; i++) {
        make_vlan_row(bridge, i);
        make_static_row(bridge, i);
    }
    add(&next, "get 0: the block's check alone", RB_GET, 0);
    add_question(bridge, &next, "get 1: NumPorts", RB_GET, "dot1dBaseNumPorts");
    add_question(bridge, &next, "get 1: NumVlans", RB_GET, "dot1qNumVlans");
    add_question(bridge, &next, "get 1: Egress of the last VLAN", RB_GET, "dot1qVlanStaticEgressPorts");
    add_questions(bridge, &next, "get 16: over all tables", RB_GET);
    add_question(bridge, &next, "get-next 1: after NumPorts", RB_GET_NEXT, "dot1dBaseNumPorts");
    add_question(bridge, &next, "get-next 1: after the static rows", RB_GET_NEXT, "dot1dStaticStatus");
    add_questions(bridge, &next, "get-next 16: over all tables", RB_GET_NEXT);
    add_numbers(&next, "set 1: AgingTime", 4, 1);
    add_numbers(&next, "set 16: numbers", 0, RB_BINDINGS_MAX);
    add_exchange(&next, "set 2: a row removed, one made", 1);
    add_exchange(&next, "set 16: 8 rows removed, 8 made", 8);
    REQUIRE(next == bridge->workloads + WORKLOADS, "the number of workloads");
}
