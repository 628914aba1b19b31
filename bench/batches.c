#define _DEFAULT_SOURCE
#include "batches.h"

#include "depth.h"
#include "figures.h"

/* What is wanted of a call: milliseconds, and octets of stack. */
enum { MOST_MILLISECONDS = 10, MOST_STACK = 4096 };

enum { BATCH_MAX = RB_BATCH_MAX * (RB_FRAME_HEAD + RB_MESSAGE_MAX), PRIORITIES = 8, COLUMNS = 4, ABSENT_MAX = 255 };

/* A batch in octets, and the block that it is for. */
struct batch {
    const char *title;
    const uint8_t *block;
    size_t length;
    uint8_t octets[BATCH_MAX];
};

/* What binding `at` of all 1,024 names. Four bindings, one behind the other, name one row of a growing table. */
typedef void add_binding(struct octets *message, uint32_t at);

static void name_priority(struct octets *message, uint32_t at)
{
    uint32_t cell = at % (RB_PORTS_MAX * PRIORITIES);
    const char *object = at < RB_PORTS_MAX * PRIORITIES ? "dot1dRegenUserPriority" : "dot1dTrafficClass";

    put_number(message, object, INDEX(1 + cell / PRIORITIES, cell % PRIORITIES), 1);
}

static void name_vlan(struct octets *message, uint32_t at, uint32_t id)
{
    static const char *const columns[COLUMNS] = {"dot1qVlanStaticEgressPorts", "dot1qVlanForbiddenEgressPorts", "dot1qVlanStaticUntaggedPorts", "dot1qVlanStaticRowStatus"};

    put_number(message, columns[at % COLUMNS], INDEX(id), 1);
}

static void name_live_vlan(struct octets *message, uint32_t at)
{
    name_vlan(message, at, vlan_id(at / COLUMNS));
}

/* VLANs 2 to 256, the last of them twice as often: beside VLAN 1 there is no room for one more. */
static void name_absent_vlan(struct octets *message, uint32_t at)
{
    name_vlan(message, at, 2 + (at / COLUMNS < ABSENT_MAX ? at / COLUMNS : ABSENT_MAX - 1));
}

static void name_live_static(struct octets *message, uint32_t at)
{
    static const char *const columns[COLUMNS] = {"dot1dStaticAddress", "dot1dStaticReceivePort", "dot1dStaticAllowedToGoTo", "dot1dStaticStatus"};
    uint32_t index[INDEX_SUBS_MAX];
    size_t count = put_static_index(index, at / COLUMNS, RB_PORTS_MAX);

    put_number(message, columns[at % COLUMNS], index, count, 3);
}

static const struct {
    const char *title;
    bool full;
    add_binding *add;
} kinds[BATCHES] = {
    {"cells of both priority maps", true, name_priority},
    {"256 VLAN rows that stand", true, name_live_vlan},
    {"256 static rows that stand", true, name_live_static},
    {"255 VLAN rows that are absent", false, name_absent_vlan},
};

static void add_message(struct batch *batch, uint32_t number, add_binding *add)
{
    struct octets message;

    request_start(&message, RB_SET, number);
    for (uint32_t i = 0; i < RB_BINDINGS_MAX; i++) {
        add(&message, number * RB_BINDINGS_MAX + i);
    }
    const uint8_t head[RB_FRAME_HEAD] = {0x7F, 0, 2, (uint8_t)(message.count >> 8), (uint8_t)message.count};

    memcpy(batch->octets + batch->length, head, RB_FRAME_HEAD);
    memcpy(batch->octets + batch->length + RB_FRAME_HEAD, message.at, message.count);
    batch->length += RB_FRAME_HEAD + message.count;
}

static void make_batch(struct batch *batch, size_t kind, const struct bridge *fresh, const struct bridge *full)
{
    batch->title = kinds[kind].title;
    batch->block = kinds[kind].full ? full->block : fresh->block;
    batch->length = 0;
    for (uint32_t m = 0; m < RB_BATCH_MAX; m++) {
        add_message(batch, m, kinds[kind].add);
    }
}

static void accept(const struct batch *batch)
{
    rb_batch is = rb_check_batch(batch->block, RB_BLOCK_SIZE, batch->octets, batch->length);

    REQUIRE(is.number == RB_ANSWERED && is.first == 0 && is.table == 0, "%s: number %u, message %u, pair %u, %u, table %u", batch->title, is.number, is.message,
            is.first, is.second, is.table);
}

static double milliseconds(const struct batch *batch)
{
    double rounds[ROUNDS];

    for (size_t round = 0; round < ROUNDS; round++) {
        uint64_t start = now(CLOCK_THREAD_CPUTIME_ID);

        accept(batch);
        rounds[round] = (double)(now(CLOCK_THREAD_CPUTIME_ID) - start) / 1e6;
    }
    return median(rounds, ROUNDS);
}

static void check(const void *with)
{
    const struct batch *batch = with;

    rb_check_batch(batch->block, RB_BLOCK_SIZE, batch->octets, batch->length);
}

/* The deepest call: the batch as it is, cut by an octet, with a get as its first message, and on a block with a wrong last octet. */
static size_t deepest(struct batch *batch)
{
    static uint8_t damaged[RB_BLOCK_SIZE];
    size_t most = depth_of(check, batch), octets;

    batch->length--;
    octets = depth_of(check, batch);
    most = octets > most ? octets : most;
    batch->length++;
    batch->octets[RB_FRAME_HEAD + KIND_AT] = RB_GET;
    octets = depth_of(check, batch);
    most = octets > most ? octets : most;
    batch->octets[RB_FRAME_HEAD + KIND_AT] = RB_SET;
    memcpy(damaged, batch->block, sizeof damaged);
    damaged[RB_BLOCK_SIZE - 1] = 1;
    batch->block = damaged;
    octets = depth_of(check, batch);
    return octets > most ? octets : most;
}

static const char *verdict(bool holds)
{
    return holds ? "PASS" : "NOT ";
}

void print_batches(const struct bridge *fresh, const struct bridge *full)
{
    static struct batch batch;
    double slowest = 0;
    size_t stack = 0;

    printf("\nbatch of 64 messages with 16 bindings each, 64 ports: milliseconds per call, median of %d rounds\n\n", ROUNDS);
    for (size_t kind = 0; kind < BATCHES; kind++) {
        make_batch(&batch, kind, fresh, full);
        double taken = milliseconds(&batch);
        size_t octets = batch.length, deep = deepest(&batch);

        printf("  %-34s %6zu octets %12.3f\n", kinds[kind].title, octets, taken);
        slowest = taken > slowest ? taken : slowest;
        stack = deep > stack ? deep : stack;
    }
    printf("%s  the slowest takes %.3f milliseconds; at most %d are asked for\n", verdict(slowest <= MOST_MILLISECONDS), slowest, MOST_MILLISECONDS);
    printf("%s  stack: rb_check_batch %zu octets; at most %d are asked for\n", verdict(stack <= MOST_STACK), stack, MOST_STACK);
}

void check_one(size_t number, const struct bridge *fresh, const struct bridge *full)
{
    static struct batch batch;

    REQUIRE(number < BATCHES, "no such batch");
    make_batch(&batch, number, fresh, full);
    accept(&batch);
    printf("%s\n", kinds[number].title);
}
