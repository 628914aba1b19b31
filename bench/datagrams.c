#define _DEFAULT_SOURCE
#include "datagrams.h"

#include "agent.h"
#include "depth.h"
#include "figures.h"

/* Calls of a round, and the octets of stack that a call may have. */
enum { CALLS = 1000, MOST_STACK = 4096 };

static uint8_t block[RB_BLOCK_SIZE], message[RB_MESSAGE_MAX], answer[RB_MESSAGE_MAX], out[RB_MESSAGE_MAX];
static struct datagram request;
static rb_datagram read_as;
static rb_result answered, written;

static void read_call(void)
{
    read_as = rb_from_datagram(request.octets, request.length, message, sizeof message);
}

static void answer_call(void)
{
    answered = rb_answer(block, sizeof block, message, read_as.count, answer, sizeof answer);
}

static void write_call(void)
{
    written = rb_to_datagram(answer, answered.count, request.octets + read_as.community_at, read_as.community_len, out, sizeof out);
}

enum { READ, ANSWER, WRITE, STEPS };

static void (*const steps[STEPS])(void) = {[READ] = read_call, [ANSWER] = answer_call, [WRITE] = write_call};

static double time_step(void (*call)(void))
{
    double rounds[ROUNDS];

    for (size_t round = 0; round < ROUNDS; round++) {
        uint64_t start = now(CLOCK_THREAD_CPUTIME_ID);
        for (unsigned i = 0; i < CALLS; i++) {
            call();
        }
        rounds[round] = (double)(now(CLOCK_THREAD_CPUTIME_ID) - start) / CALLS;
    }
    return median(rounds, ROUNDS);
}

/* Plays a get once, so that each step finds what the one before it left. */
static void prepare(const struct bridge *bridge, const struct workload *workload)
{
    memcpy(block, bridge->block, sizeof block);
    request = as_datagram(&workload->asked[0]);
    for (size_t i = 0; i < STEPS; i++) {
        steps[i]();
    }
    REQUIRE(read_as.number == 0 && answered.number == 0 && written.number == 0 && answer[STATUS_AT] == RB_NO_ERROR, "%s: %s as a datagram: a refusal or a fault",
            bridge->title, workload->title);
}

static void print_line(const struct bridge *bridge, const struct workload *workload, double own)
{
    double time[STEPS], all = 0;

    prepare(bridge, workload);
    for (size_t i = 0; i < STEPS; i++) {
        time[i] = time_step(steps[i]);
        all += time[i];
    }
    printf("  %-16s %-26s %6zu %8.0f %8.0f %8.0f %8.0f %10.2f", bridge->title, workload->title, request.length, time[READ], time[ANSWER], time[WRITE], all,
           (time[READ] + time[WRITE]) / time[ANSWER]);
    if (own > 0) {
        printf(" %12.0f %8.3f\n", own, all / own);
    } else {
        printf(" %12s %8s\n", "-", "-");
    }
}

/* The first get of a bridge with so many bindings. */
static const struct workload *get_of(const struct bridge *bridge, unsigned bindings)
{
    for (size_t w = 0; w < WORKLOADS; w++) {
        if (bridge->workloads[w].kind == RB_GET && bridge->workloads[w].bindings == bindings) {
            return &bridge->workloads[w];
        }
    }
    REQUIRE(false, "no get of %u bindings is measured", bindings);
    return NULL;
}

static void make_call(const void *with)
{
    (*(void (*const *)(void))with)();
}

void print_datagrams(const struct bridge *bridges, size_t count, struct own_times snmpd)
{
    printf("\ndatagrams: nanoseconds of a get that is read, answered and written, median of %d rounds\n\n", ROUNDS);
    printf("  %-43s %6s %8s %8s %8s %8s %10s %12s %8s\n", "", "octets", "read", "answer", "write", "all", "r+w : ans", "snmpd's own", "all : it");
    for (size_t b = 0; b < count; b++) {
        print_line(&bridges[b], get_of(&bridges[b], 1), snmpd.one);
        print_line(&bridges[b], get_of(&bridges[b], RB_BINDINGS_MAX), snmpd.sixteen);
    }
    printf("\nstack: rb_from_datagram %zu octets, rb_to_datagram %zu octets; %d are allowed\n\n", depth_of(make_call, &steps[READ]), depth_of(make_call, &steps[WRITE]),
           MOST_STACK);
}
