#include "stack.h"

#include "depth.h"

struct call {
    uint8_t *block;
    const uint8_t *request; /* NULL for set-up */
    size_t length;
    uint32_t ports;
    uint8_t *room;
};

static void make_call(const void *with)
{
    static const uint8_t address[RB_ADDRESS_SIZE];
    const struct call *call = with;

    if (call->request == NULL) {
        rb_setup(call->block, RB_BLOCK_SIZE, call->ports, RB_EDITION_OLD, RB_DEVICE_TRANSPARENT, address, sizeof address);
    } else {
        rb_answer(call->block, RB_BLOCK_SIZE, call->request, call->length, call->room, RB_MESSAGE_MAX);
    }
}

static void note(struct depth *depth, size_t octets, const struct bridge *bridge, const char *what, const char *how)
{
    if (octets > depth->answer) {
        depth->answer = octets;
        snprintf(depth->what, sizeof depth->what, "%s, %s%s", bridge->title, what, how);
    }
}

/* One request as it is, cut by an octet, with octets after it, and on a block that has a wrong last octet. */
static void try_request(struct depth *depth, const struct bridge *bridge, const char *what,
                        const struct octets *request)
{
    static uint8_t block[RB_BLOCK_SIZE], room[RB_MESSAGE_MAX];
    static const char *const how[] = {"", ", cut", ", lengthened", ", damaged block"};

    for (unsigned variant = 0; variant < 4; variant++) {
        struct call call = {block, request->at, request->count, 0, room};

        memcpy(block, bridge->block, sizeof block);
        call.length -= variant == 1;
        call.length += variant == 2 ? 4 : 0;
        block[RB_BLOCK_SIZE - 1] = variant == 3;
        note(depth, depth_of(make_call, &call), bridge, what, how[variant]);
    }
}

/* A get-next after sixteen names that are as long as a request allows. */
static void try_long_names(struct depth *depth, const struct bridge *bridge)
{
    struct octets request = {.count = 0};
    struct name name = name_of("dot1qVlanStaticRowStatus", INDEX(4094, 1, 1, 1, 1, 1, 1));

    request_start(&request, RB_GET_NEXT, 1);
    for (unsigned i = 0; i < RB_BINDINGS_MAX; i++) {
        ask_for(&request, &name);
    }
    try_request(depth, bridge, "get-next 16: long names", &request);
}

struct depth stack_depth(const struct bridge *bridges, size_t count)
{
    static uint8_t block[RB_BLOCK_SIZE];
    struct depth depth = {0};

    for (size_t b = 0; b < count; b++) {
        const struct bridge *bridge = &bridges[b];
        const struct call setup = {block, NULL, 0, bridge->ports, NULL};
        size_t octets = depth_of(make_call, &setup);

        depth.setup = octets > depth.setup ? octets : depth.setup;
        for (size_t w = 0; w < WORKLOADS; w++) {
            const struct workload *workload = &bridge->workloads[w];
            for (unsigned turn = 0; turn < workload->turns; turn++) {
                try_request(&depth, bridge, workload->title, &workload->asked[turn]);
            }
        }
        try_long_names(&depth, bridge);
    }
    return depth;
}
