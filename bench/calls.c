/* Callgrind counts while `play_counted` runs, and prints what it counted when the program ends: bench/run tells it so by
 * the function's name. It stands in a file of its own, so that no compiler puts it into its caller. */
#include "calls.h"

void play_counted(struct bridge *bridge, const struct workload *workload)
{
    static uint8_t room[RB_MESSAGE_MAX];

    for (unsigned i = 0; i < COUNTED_CALLS; i++) {
        const struct octets *request = &workload->asked[i % workload->turns];

        rb_answer(bridge->block, RB_BLOCK_SIZE, request->at, request->count, room, sizeof room);
    }
}
