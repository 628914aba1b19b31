#define _DEFAULT_SOURCE
#include "walks.h"

#include "figures.h"

enum { WALK_MAX = 1 << 20, INSTANCES_MAX = 1 << 13, HALVINGS = 3, CALLS = 100 };

/* A walk, and where each of its bindings starts; the last of them is its end. */
struct walk {
    uint8_t octets[WALK_MAX];
    size_t starts[INSTANCES_MAX];
    size_t instances;
    struct name last; /* of the last instance; at first the least name that a request can have */
};

/* Adds the instance after the last one. False at the end of the bridge's instances. */
static bool add_next(const struct bridge *bridge, struct walk *walk)
{
    static uint8_t block[RB_BLOCK_SIZE], room[RB_MESSAGE_MAX];
    size_t end = walk->starts[walk->instances];
    struct octets request;
    struct answer answer;
    struct binding binding;
    rb_result result;

    request_start(&request, RB_GET_NEXT, 1);
    REQUIRE(request_add(&request, &walk->last, NULL), "a request is too long");
    memcpy(block, bridge->block, sizeof block);
    result = rb_answer(block, sizeof block, request.at, request.count, room, sizeof room);
    REQUIRE(result.number == RB_ANSWERED && answer_read(&answer, room, result.count) && answer_binding(&answer, &binding),
            "a get-next has no answer");
    if (binding.value.tag == RB_TAG_END_OF_MIB_VIEW) {
        return false;
    }
    REQUIRE(end + result.count - HEAD_SIZE <= WALK_MAX && walk->instances + 2 <= INSTANCES_MAX, "the walk is too long");
    memcpy(walk->octets + end, room + HEAD_SIZE, result.count - HEAD_SIZE);
    walk->last = binding.name;
    walk->instances++;
    walk->starts[walk->instances] = end + result.count - HEAD_SIZE;
    return true;
}

/* The least processor time of a comparison of the first instances of two walks: what disturbs a call only makes it longer. */
static double time_comparison(const struct walk *walk, const uint8_t *device, size_t instances, uint8_t *list, size_t differing)
{
    size_t length = walk->starts[instances];
    uint64_t least = UINT64_MAX;

    for (unsigned i = 0; i < CALLS; i++) {
        uint64_t start = now(CLOCK_THREAD_CPUTIME_ID);
        rb_walks walks = rb_compare_walks(walk->octets, length, device, length, list, RB_ENTRY_SIZE * instances);
        uint64_t taken = now(CLOCK_THREAD_CPUTIME_ID) - start;

        REQUIRE(walks.number == RB_ANSWERED && walks.differing == differing && walks.tail_len == 0, "another comparison");
        least = taken < least ? taken : least;
    }
    return (double)least;
}

void print_walks(const struct bridge *bridge)
{
    static struct walk walk = {.last = {.count = 2}};
    static uint8_t equal[WALK_MAX], changed[WALK_MAX], list[RB_ENTRY_SIZE * INSTANCES_MAX];

    while (add_next(bridge, &walk)) {
    }
    memcpy(equal, walk.octets, sizeof equal);
    memcpy(changed, walk.octets, sizeof changed);
    for (size_t i = 1; i <= walk.instances; i++) {
        changed[walk.starts[i] - 1] ^= 1; /* the last octet of a content */
    }
    printf("nanoseconds of a comparison of two walks, and of each instance: %s\n\n", bridge->title);
    printf("  %-34s %12s %12s %12s %12s\n", "", "equal", "an instance", "all differ", "an instance");
    for (unsigned halving = HALVINGS; halving-- > 0;) {
        size_t instances = walk.instances >> halving;
        double same = time_comparison(&walk, equal, instances, list, 0);
        double other = time_comparison(&walk, changed, instances, list, instances);

        printf("  %5zu instances, %6zu octets each    %12.0f %12.1f %12.0f %12.1f\n", instances, walk.starts[instances],
               same, same / (double)instances, other, other / (double)instances);
    }
    putchar('\n');
}
