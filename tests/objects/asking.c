#include "asking.h"

struct name instance_of(const struct object *object, const struct index *index)
{
    struct name name;

    name.count = object_instance(object, index->sub, index->count, name.sub);
    return name;
}

/* Plays a request on a copy of the bridge; returns how many octets of the room are the answer. */
static size_t play(const struct bridge *bridge, const struct octets *request, uint8_t room[RB_MESSAGE_MAX])
{
    static uint8_t block[RB_BLOCK_SIZE];
    rb_result got;

    memcpy(block, bridge->block, sizeof block);
    got = rb_answer(block, sizeof block, request->at, request->count, room, RB_MESSAGE_MAX);
    REQUIRE(got.number == RB_ANSWERED, "a request was answered with number %u", got.number);
    return got.count;
}

struct binding ask(const struct bridge *bridge, uint8_t kind, const struct name *name)
{
    uint8_t room[RB_MESSAGE_MAX];
    struct octets request;

    request_start(&request, kind, 1);
    ask_for(&request, name);
    return only_binding(room, play(bridge, &request, room));
}

void put(struct octets *request, const struct object *object, const struct index *index, const struct value *value)
{
    struct name name = instance_of(object, index);

    REQUIRE(request_add(request, &name, value), "a request is too long");
}

uint8_t status_of(const struct bridge *bridge, const struct octets *request)
{
    uint8_t room[RB_MESSAGE_MAX];

    play(bridge, request, room);
    return room[STATUS_AT];
}

static size_t put_frame(uint8_t *at, const struct octets *message)
{
    const uint8_t head[RB_FRAME_HEAD] = {0x7F, 0, 2, (uint8_t)(message->count >> 8), (uint8_t)message->count};

    memcpy(at, head, sizeof head);
    memcpy(at + sizeof head, message->at, message->count);
    return sizeof head + message->count;
}

bool name_one_row(const struct bridge *bridge, const struct octets *first, const struct octets *second)
{
    uint8_t batch[2 * (RB_FRAME_HEAD + RB_MESSAGE_MAX)];
    size_t count;
    rb_batch got;

    REQUIRE(first->count <= RB_MESSAGE_MAX && second->count <= RB_MESSAGE_MAX, "a message is too long");
    count = put_frame(batch, first);
    count += put_frame(batch + count, second);
    got = rb_check_batch(bridge->block, sizeof bridge->block, batch, count);
    REQUIRE(got.number == RB_ANSWERED && got.table == 0, "a batch: number %u, table %u", got.number, got.table);
    return got.first == 1 && got.second == 2;
}
