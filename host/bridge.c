#include "bridge.h"

#include <string.h>

#include "codes.h"
#include "refbridge.h"

#define ROOM_FILL 0xA5 /* octets of the room before a call, to see which ones the call writes */

void bridge_clear(struct bridge *bridge)
{
    memset(bridge, 0, sizeof *bridge);
    bridge_lend_whole(bridge);
}

void bridge_lend_whole(struct bridge *bridge)
{
    bridge->block_lent = RB_BLOCK_SIZE;
    bridge->room_lent = RB_MESSAGE_MAX;
}

bool bridge_changed(const struct bridge *bridge)
{
    return memcmp(bridge->block, bridge->before, BLOCK_LENT_MAX) != 0;
}

static void note_before(struct bridge *bridge)
{
    memcpy(bridge->before, bridge->block, BLOCK_LENT_MAX);
    memset(bridge->room, ROOM_FILL, ROOM_LENT_MAX);
}

static bool room_kept_from(const struct bridge *bridge, size_t from)
{
    for (size_t i = from; i < ROOM_LENT_MAX; i++) {
        if (bridge->room[i] != ROOM_FILL) {
            return false;
        }
    }
    return true;
}

/* The octets after the length that was lent are not the library's to write. */
static bool block_kept_past(const struct bridge *bridge)
{
    size_t lent = bridge->block_lent;

    return memcmp(bridge->block + lent, bridge->before + lent, BLOCK_LENT_MAX - lent) == 0;
}

static const char *offset_flaw(const struct reply *reply, size_t request_count)
{
    if (reply->offset != 0 && !refusal_has_offset(reply->number)) {
        return "a return other than 4 to 8 has an offset that is not 0";
    }
    return reply->offset > request_count ? "the offset is past the request's end" : NULL;
}

static const char *refusal_flaw(const struct bridge *bridge, const struct reply *reply)
{
    if (reply->count != 0) {
        return "a refusal has a count that is not 0";
    }
    if (bridge_changed(bridge)) {
        return "a refusal changed the block";
    }
    return room_kept_from(bridge, 0) ? NULL : "a refusal changed the answer room";
}

/* Of set-up and reset, which have one refusal each, and no answer. */
static const char *block_call_flaw(const struct bridge *bridge, const struct reply *reply, uint32_t refusal)
{
    if (reply->number != RB_ANSWERED && reply->number != refusal) {
        return "set-up returned neither 0 nor 9, or reset neither 0 nor 3";
    }
    if (reply->number != RB_ANSWERED) {
        return refusal_flaw(bridge, reply);
    }
    if (reply->count != 0) {
        return "set-up or reset has a count that is not 0";
    }
    return block_kept_past(bridge) ? NULL : "set-up or reset wrote past the block";
}

static const char *answer_call_flaw(const struct bridge *bridge, const struct reply *reply)
{
    if (reply->number > RB_TOO_MANY_BINDINGS) {
        return "the answer call returned no number from 0 to 8";
    }
    if (reply->number != RB_ANSWERED) {
        return refusal_flaw(bridge, reply);
    }
    if (reply->count > bridge->room_lent || reply->count > RB_MESSAGE_MAX) {
        return "the count is over the answer room or over 1472";
    }
    if (!room_kept_from(bridge, reply->count)) {
        return "octets of the answer room past the count changed";
    }
    return block_kept_past(bridge) ? NULL : "the answer call wrote past the block";
}

static struct reply make_reply(rb_result result)
{
    return (struct reply){.number = result.number, .count = result.count, .offset = result.offset};
}

/* Notes a call's flaw and, where it has none, that of its offset. */
static void note_flaw(struct reply *reply, const char *flaw, size_t request_count)
{
    reply->flaw = flaw != NULL ? flaw : offset_flaw(reply, request_count);
}

struct reply bridge_setup(struct bridge *bridge, const struct command *command)
{
    const struct octets *address = &command->octets;
    uint32_t ports = command->number;
    struct reply reply;

    note_before(bridge);
    reply = make_reply(rb_setup(bridge->block, bridge->block_lent, ports, command->edition, command->device,
                                address->at, address->count));
    note_flaw(&reply, block_call_flaw(bridge, &reply, RB_SETUP_REFUSED), 0);
    if (reply.number == RB_ANSWERED) {
        bridge->ports = ports;
    }
    return reply;
}

struct reply bridge_answer(struct bridge *bridge, const struct octets *request)
{
    struct reply reply;

    note_before(bridge);
    reply = make_reply(
        rb_answer(bridge->block, bridge->block_lent, request->at, request->count, bridge->room, bridge->room_lent));
    note_flaw(&reply, answer_call_flaw(bridge, &reply), request->count);
    return reply;
}

struct reply bridge_reset(struct bridge *bridge)
{
    struct reply reply;

    note_before(bridge);
    reply = make_reply(rb_reset(bridge->block, bridge->block_lent));
    note_flaw(&reply, block_call_flaw(bridge, &reply, RB_BLOCK_NOT_LEGAL), 0);
    return reply;
}

static const char *timer_flaw(const struct reply *reply)
{
    if (reply->number != RB_ANSWERED && reply->number != RB_TIMER_RANGE) {
        return "a timer call returned neither 0 nor 10";
    }
    return reply->number == RB_TIMER_RANGE && reply->count != 0 ? "a refusal has a count that is not 0" : NULL;
}

static struct reply timer_reply(rb_result result)
{
    struct reply reply = make_reply(result);

    note_flaw(&reply, timer_flaw(&reply), 0);
    return reply;
}

struct reply bridge_to_256ths(uint32_t hundredths)
{
    return timer_reply(rb_to_256ths(hundredths));
}

struct reply bridge_to_hundredths(uint32_t ticks)
{
    return timer_reply(rb_to_hundredths(ticks));
}
