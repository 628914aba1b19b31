/* Complete get-next walks, on fresh bridges and on bridges with 256 VLAN rows and 256 static rows or with all port pairs that
 * there can be: every instance once, ascending, and an end. */
#include "requests.h"

enum { ROWS = 256, PAIRS = 64, VLANS_IN_A_SET = 16, STATICS_IN_A_SET = 8 };

static uint8_t block[RB_BLOCK_SIZE], room[RB_MESSAGE_MAX];
static const uint8_t address[RB_ADDRESS_SIZE] = {0, 1, 2, 3, 4, 5};

static rb_result answer(const struct octets *request)
{
    return rb_answer(block, sizeof block, request->at, request->count, room, sizeof room);
}

static void accept(const struct octets *request)
{
    rb_result got = answer(request);

    REQUIRE(got.number == RB_ANSWERED && room[STATUS_AT] == RB_NO_ERROR,
            "a set was not accepted: number %u, status %u, index %u", got.number, room[STATUS_AT], room[INDEX_AT]);
}

/* VLANs 2 to 256 by createAndGo and createAndWait. */
static void fill_vlans(void)
{
    struct octets request;

    for (uint32_t v = 2; v <= ROWS; v++) {
        if ((v - 2) % VLANS_IN_A_SET == 0) {
            request_start(&request, RB_SET, v);
        }
        put_number(&request, "dot1qVlanStaticRowStatus", INDEX(v), 4 + v % 2);
        if ((v - 2) % VLANS_IN_A_SET == VLANS_IN_A_SET - 1 || v == ROWS) {
            accept(&request);
        }
    }
}

/* Row i has the address octets i and i * 7, and a receive port up to the last one. */
static void fill_statics(uint32_t ports)
{
    struct octets request;

    for (uint32_t i = 0; i < ROWS; i++) {
        if (i % STATICS_IN_A_SET == 0) {
            request_start(&request, RB_SET, i);
        }
        put_number(&request, "dot1dStaticStatus", INDEX(i, i * 7 % 256, 0, 255, i / 3, 1, i % (ports + 1)), 3 + i % 3);
        if (i % STATICS_IN_A_SET == STATICS_IN_A_SET - 1) {
            accept(&request);
        }
    }
}

/* Pairs from those of the last ports on, so that each is put before the others; returns how many they are. */
static unsigned fill_pairs(uint32_t ports)
{
    struct octets request;
    unsigned pairs = 0;

    for (uint32_t low = ports - 1; low >= 1; low--) {
        for (uint32_t high = ports; high > low && pairs < PAIRS; high--, pairs++) {
            request_start(&request, RB_SET, pairs);
            put_number(&request, "dot1dPortPairBridgeNum", INDEX(low, high), pairs % 16);
            put_number(&request, "dot1dPortPairBridgeState", INDEX(low, high), 1 + pairs % 2);
            accept(&request);
        }
    }
    return pairs;
}

static struct binding ask(uint8_t kind, uint32_t id, const struct name *name)
{
    struct octets request;

    request_start(&request, kind, id);
    ask_for(&request, name);
    rb_result got = answer(&request);
    REQUIRE(got.number == RB_ANSWERED, "kind %u was answered with number %u", kind, got.number);
    return only_binding(room, got.count);
}

/* A get of the instance gives what get-next gave. */
static void get_again(const struct binding *found)
{
    struct binding got = ask(RB_GET, 1, &found->name);

    REQUIRE(name_order(&got.name, &found->name) == 0, "a get of an instance has another name");
    REQUIRE(got.value.tag == found->value.tag && got.value.count == found->value.count &&
                memcmp(got.value.octets, found->value.octets, got.value.count) == 0,
            "a get of an instance gives something else than get-next");
}

static unsigned walk(void)
{
    struct name name = name_of("dot1dBridge", NULL, 0);

    for (unsigned seen = 0;; seen++) {
        struct binding next = ask(RB_GET_NEXT, seen, &name);

        if (next.value.tag == RB_TAG_END_OF_MIB_VIEW) {
            REQUIRE(name_order(&next.name, &name) == 0, "the end does not echo the name");
            return seen;
        }
        REQUIRE(name_order(&name, &next.name) < 0, "instance %u does not ascend", seen);
        get_again(&next);
        name = next.name;
    }
}

static void set_up(uint32_t ports, uint32_t device)
{
    rb_result got = rb_setup(block, sizeof block, ports, RB_EDITION_OLD, device, address, sizeof address);

    REQUIRE(got.number == RB_ANSWERED, "set-up of %u", ports);
}

static void walk_routing(uint32_t n)
{
    /* 3 scalars; 3 columns of ports; 4 columns of pairs */
    unsigned fresh = 3 + 3 * n, pairs;

    set_up(n, RB_DEVICE_SOURCE_ROUTING);
    REQUIRE(walk() == fresh, "source routing, %u ports: not %u instances", n, fresh);
    pairs = fill_pairs(n);
    REQUIRE(walk() == fresh + 4 * pairs, "source routing, %u ports, %u pairs: not %u instances", n, pairs, fresh + 4 * pairs);
    printf("walks: source routing, %u ports: %u instances fresh, %u with %u pairs\n", n, fresh, fresh + 4 * pairs, pairs);
}

int main(void)
{
    static const uint32_t sizes[] = {1, 4, 64};

    for (size_t i = 0; i < sizeof sizes / sizeof sizes[0]; i++) {
        uint32_t n = sizes[i];
        /* 13 scalars; 11 columns of ports, two of ports and priorities; 5 columns of VLAN rows, 4 of static rows */
        unsigned fixed = 13 + 27 * n, fresh = fixed + 5, full = fixed + 5 * ROWS + 4 * ROWS;

        set_up(n, RB_DEVICE_TRANSPARENT);
        REQUIRE(walk() == fresh, "%u ports: not %u instances", n, fresh);
        fill_vlans();
        fill_statics(n);
        REQUIRE(walk() == full, "%u ports, full tables: not %u instances", n, full);
        printf("walks: %u ports: %u instances fresh, %u with full tables, each once, ascending, read again by get\n", n,
               fresh, full);
        walk_routing(n);
    }
    return 0;
}
