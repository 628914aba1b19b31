#include "random.h"

static uint64_t state = 1;

void chance_seed(uint64_t seed)
{
    state = seed;
}

/* xorshift */
uint32_t chance(uint32_t below)
{
    state ^= state << 13;
    state ^= state >> 7;
    state ^= state << 17;
    return (uint32_t)((state >> 33) % below);
}

/* A name of one of these objects, or of none; most indexes are small, and some have a sub-id too many. */
static struct name random_name(void)
{
    static const char *const objects[] = {"dot1dStpPriority", "dot1dStpPortPriority", "dot1dStaticStatus", "dot1dRegenUserPriority", "dot1qVlanStaticRowStatus",
        "dot1qVlanStaticName", "dot1qVlanStaticEgressPorts", "dot1qPvid", "dot1dBasePort", "dot1dBridge", "dot1dSrPortLargestFrame",
        "dot1dPortPairBridgeNum", "dot1dPortPairBridgeState", "dot1dPortPairBridgeState", "dot1dPortPairLowPort"};
    const char *object = objects[chance(sizeof objects / sizeof objects[0])];
    size_t count = object_index_subs(object_called(object)) + (chance(12) == 0);
    uint32_t index[INDEX_SUBS_MAX + 1];
    for (size_t i = 0; i < count; i++)
        index[i] = chance(8) == 0 ? chance(5000) : chance(6);
    return name_of(object, index, count);
}

static void random_binding(struct octets *r, enum rb_kind kind)
{
    struct name name = random_name();
    struct value value = {.tag = RB_TAG_STRING, .count = chance(12) == 0 ? chance(STRING_MAX) : chance(9)};
    for (size_t i = 0; i < STRING_MAX; i++)
        value.octets[i] = (uint8_t)(chance(3) == 0 ? chance(256) : 0);
    value.octets[3] = (uint8_t)chance(8);
    if (chance(12) == 0)
        memcpy(value.octets, (const uint8_t[]){0, 0, 0x05, 0xBE}, 4); /* 1470, a largest frame */
    if (chance(3) != 0) {
        value.tag = chance(4) == 0 ? RB_TAG_UNSIGNED : RB_TAG_INTEGER;
        value.count = 4;
    }
    request_add(r, &name, kind == RB_SET ? &value : NULL);
}

void random_request(struct octets *r, enum rb_kind kind)
{
    request_start(r, kind, chance(1000000));
    for (uint32_t n = chance(8) == 0 ? chance(19) : chance(4); n > 0; n--)
        random_binding(r, kind);
}

void damage(struct octets *r)
{
    for (uint32_t n = 1 + chance(3); n > 0; n--) {
        uint32_t at = chance((uint32_t)r->count + 1);
        if (chance(3) == 0)
            r->count = at;
        else if (chance(3) == 0 && r->count < OCTETS_MAX)
            r->at[r->count++] = (uint8_t)chance(0x40);
        else if (at < r->count)
            r->at[at] = (uint8_t)(chance(2) == 0 ? chance(256) : r->at[at] ^ (1u << chance(8)));
    }
}
