#include "reference_walk.h"

#include <errno.h>
#include <inttypes.h>
#include <string.h>

#include "message.h"
#include "refbridge.h"

/* Asks for the instance after `binding`, which then is that instance; its octets stand in the room from `start` to `end`. */
static bool step(struct bridge *bridge, struct binding *binding, size_t *start, size_t *end, struct complaint *why)
{
    struct answer answer;
    struct octets request;
    struct reply reply;

    request_start(&request, RB_GET_NEXT, 1);
    request_add(&request, &binding->name, NULL);
    reply = bridge_answer(bridge, &request);
    if (reply.number != RB_ANSWERED || reply.flaw != NULL) {
        return complain(why, "a get-next was not answered: number %" PRIu32 ", %s", reply.number,
                        reply.flaw == NULL ? "no flaw" : reply.flaw);
    }
    if (!answer_read(&answer, bridge->room, reply.count) || answer.bindings != 1) {
        return complain(why, "a get-next has not one binding in its answer");
    }
    *start = answer.place;
    answer_binding(&answer, binding);
    *end = answer.place;
    return true;
}

bool walk_of(struct bridge *bridge, FILE *file, struct complaint *why)
{
    struct binding binding = {.name = {.count = NAME_SUBS_MIN}}; /* 0.0, below every instance */
    size_t start = 0, end = 0;

    for (;;) {
        if (!step(bridge, &binding, &start, &end, why)) {
            return false;
        }
        if (binding.value.tag == RB_TAG_END_OF_MIB_VIEW) {
            return true;
        }
        if (fwrite(bridge->room + start, 1, end - start, file) != end - start) {
            return complain(why, "the walk cannot be written: %s", strerror(errno));
        }
    }
}
