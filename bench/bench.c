/* Measures the library, the floor, an ordinary implementation and snmpd in one run, side by side.
 *
 *   bench AGENT [PORT PROCESS]   the library's agent (host/agent), and the UDP port and the process id of a running snmpd; without
 *                                them it is left out
 *   bench calls WORKLOAD         only the calls of one workload, by its number, for callgrind to count
 *   bench batch NUMBER           only the check of one batch, likewise
 *
 * bench/run builds and starts this program; docs/PERFORMANCE.md tells how to read what it prints. */
#define _DEFAULT_SOURCE
#include "agent.h"
#include "batches.h"
#include "calls.h"
#include "datagrams.h"
#include "figures.h"
#include "stack.h"
#include "tally.h"
#include "walks.h"
#include "workload.h"

enum { BATCH_NANOSECONDS = 1000000, TRIPS = 200, LINE = 96 };

/* What the project asks of an answer to a get with one binding. */
enum { MOST_MEMCMPS = 16, PARTS_OF_SNMPD = 3 };

/* An implementation: opens its own bridge from a block, and gives an answer's length, or 0 for a refusal. */
struct implementation {
    const char *title;
    void *(*open)(const uint8_t *block);
    uint32_t (*answer)(void *bridge, const uint8_t *request, size_t length, uint8_t *room);
};

/* One line of the table for one implementation. */
struct job {
    void *bridge;
    unsigned calls; /* in a batch, an even number */
    double nanoseconds[ROUNDS];
};

/* One request to an agent behind a socket. */
struct errand {
    char title[LINE];
    const struct agent *agent;
    struct datagram request;
    double trip[ROUNDS], processor[ROUNDS];
};

static void *open_block(const uint8_t *block)
{
    uint8_t *own = malloc(RB_BLOCK_SIZE);

    REQUIRE(own != NULL, "no memory");
    return memcpy(own, block, RB_BLOCK_SIZE);
}

static uint32_t answer_by_library(void *block, const uint8_t *request, size_t length, uint8_t *room)
{
    return rb_answer(block, RB_BLOCK_SIZE, request, length, room, RB_MESSAGE_MAX).count;
}

#ifdef WITH_MODEL
/* bench/model.rs */
void *model_open(const uint8_t *block);
uint32_t model_answer_kept(void *bridge, const uint8_t *request, size_t length, uint8_t *room);
uint32_t model_answer_block(void *block, const uint8_t *request, size_t length, uint8_t *room);
#endif

static const struct implementation implementations[] = {
    {"library", open_block, answer_by_library},
#ifdef WITH_MODEL
    {"model", model_open, model_answer_kept},
    {"model+block", open_block, model_answer_block},
#endif
};

enum { LIBRARY, IMPLEMENTATIONS = sizeof implementations / sizeof implementations[0] };

static struct bridge bridges[BRIDGES];
static struct job jobs[BRIDGES][WORKLOADS][IMPLEMENTATIONS];
static double floor_rounds[ROUNDS];
static uint8_t rooms[IMPLEMENTATIONS][RB_MESSAGE_MAX];

/* Errands to snmpd by kind and number of bindings, then the same to the library's agent. */
enum { SNMP_GET_1, SNMP_NEXT_1, SNMP_GET_16, SNMP_NEXT_16, SNMP_ERRANDS, ERRANDS = 2 * SNMP_ERRANDS };
static struct errand errands[ERRANDS];

/* Processor time of one call, so that other programs on the machine do not count. */
static double time_batch(const struct implementation *by, const struct job *job, const struct workload *workload,
                         uint8_t *room)
{
    uint64_t start = now(CLOCK_THREAD_CPUTIME_ID);

    for (unsigned i = 0; i < job->calls; i++) {
        const struct octets *request = &workload->asked[i % workload->turns];
        by->answer(job->bridge, request->at, request->count, room);
    }
    return (double)(now(CLOCK_THREAD_CPUTIME_ID) - start) / job->calls;
}

/* Two different buffers with equal content, compared through a pointer that the compiler cannot see through. */
static double time_memcmp(void)
{
    static int (*volatile compare)(const void *, const void *, size_t) = memcmp;
    static uint8_t one[RB_BLOCK_SIZE], other[RB_BLOCK_SIZE];
    const unsigned calls = 1000;
    int differs = 0;

    memcpy(one, bridges[0].block, sizeof one);
    memcpy(other, bridges[0].block, sizeof other);
    uint64_t start = now(CLOCK_THREAD_CPUTIME_ID);
    for (unsigned i = 0; i < calls; i++) {
        differs |= compare(one, other, sizeof one);
    }
    uint64_t end = now(CLOCK_THREAD_CPUTIME_ID);
    REQUIRE(differs == 0, "equal buffers differ");
    return (double)(end - start) / calls;
}

/* Every implementation answers every request, without a fault and with the same octets. */
static void compare_answers(const struct bridge *bridge, const struct workload *workload, struct job *of)
{
    for (unsigned turn = 0; turn < 2 * workload->turns; turn++) {
        const struct octets *request = &workload->asked[turn % workload->turns];
        uint32_t counts[IMPLEMENTATIONS];

        for (size_t i = 0; i < IMPLEMENTATIONS; i++) {
            counts[i] = implementations[i].answer(of[i].bridge, request->at, request->count, rooms[i]);
            REQUIRE(counts[i] >= HEAD_SIZE && rooms[i][STATUS_AT] == RB_NO_ERROR, "%s: %s: no answer, or a fault: %s",
                    bridge->title, workload->title, implementations[i].title);
            REQUIRE(counts[i] == counts[0] && memcmp(rooms[i], rooms[0], counts[0]) == 0, "%s: %s: %s differs",
                    bridge->title, workload->title, implementations[i].title);
        }
    }
}

/* Opens a bridge for each implementation, and finds how many calls make a batch of about a millisecond. */
static void prepare(struct bridge *bridge, const struct workload *workload, struct job *of)
{
    for (size_t i = 0; i < IMPLEMENTATIONS; i++) {
        of[i].bridge = implementations[i].open(bridge->block);
        REQUIRE(of[i].bridge != NULL, "%s: %s cannot open it", bridge->title, implementations[i].title);
    }
    compare_answers(bridge, workload, of);
    for (size_t i = 0; i < IMPLEMENTATIONS; i++) {
        of[i].calls = 20;
        double once = time_batch(&implementations[i], &of[i], workload, rooms[i]);
        unsigned calls = (unsigned)(BATCH_NANOSECONDS / (once + 1));
        of[i].calls = calls < 4 ? 4 : calls & ~1u;
    }
}

/* The first workload of a kind with so many bindings. */
static const struct workload *workload_of(const struct bridge *bridge, enum rb_kind kind, unsigned bindings)
{
    size_t w = 0;

    while (w < WORKLOADS && (bridge->workloads[w].kind != kind || bridge->workloads[w].bindings != bindings)) {
        w++;
    }
    REQUIRE(w < WORKLOADS, "no such workload");
    return &bridge->workloads[w];
}

static void prepare_errands(const struct agent *snmpd, const struct agent *agent, const struct bridge *bridge)
{
    static const enum rb_kind kinds[] = {RB_GET, RB_GET_NEXT, RB_GET, RB_GET_NEXT};
    static const unsigned bindings[] = {1, 1, RB_BINDINGS_MAX, RB_BINDINGS_MAX};

    for (size_t i = 0; i < SNMP_ERRANDS; i++) {
        const struct workload *workload = workload_of(bridge, kinds[i], bindings[i]);
        struct errand *own = &errands[SNMP_ERRANDS + i];

        errands[i].agent = snmpd;
        errands[i].request = snmp_request(kinds[i], bindings[i]);
        snprintf(errands[i].title, LINE, "snmpd, %s %u", kinds[i] == RB_GET ? "get" : "get-next", bindings[i]);
        own->agent = agent;
        own->request = as_datagram(&workload->asked[0]);
        snprintf(own->title, LINE, "agent, %s, %s", bridge->title, workload->title);
    }
}

/* Each trip is timed by itself, so that a trip that another program disturbs does not count in the median. */
static void run_errand(struct errand *errand, size_t round)
{
    double trips[TRIPS];
    struct datagram answer;
    uint64_t before = processor_time(errand->agent);

    for (size_t i = 0; i < TRIPS; i++) {
        uint64_t start = now(CLOCK_MONOTONIC);
        bool came = round_trip(errand->agent, errand->request.octets, errand->request.length, &answer);
        trips[i] = (double)(now(CLOCK_MONOTONIC) - start);
        REQUIRE(came && snmp_answered(&answer), "%s: no answer, or a fault", errand->title);
    }
    errand->trip[round] = median(trips, TRIPS);
    errand->processor[round] = (double)(processor_time(errand->agent) - before) / TRIPS;
}

static void run_round(size_t round)
{
    floor_rounds[round] = time_memcmp();
    for (size_t b = 0; b < BRIDGES; b++) {
        for (size_t w = 0; w < WORKLOADS; w++) {
            for (size_t i = 0; i < IMPLEMENTATIONS; i++) {
                struct job *job = &jobs[b][w][i];
                job->nanoseconds[round] = time_batch(&implementations[i], job, &bridges[b].workloads[w], rooms[i]);
            }
        }
    }
    for (size_t e = 0; e < ERRANDS; e++) {
        if (errands[e].agent != NULL) {
            run_errand(&errands[e], round);
        }
    }
}

static double library_time(size_t b, size_t w)
{
    return median(jobs[b][w][LIBRARY].nanoseconds, ROUNDS);
}

/* What snmpd takes for a request of this kind and number of bindings; 0 where it was not asked. */
static double snmpd_time(const struct workload *workload)
{
    size_t e = workload->bindings == 1 ? SNMP_GET_1 : SNMP_GET_16;

    if (workload->kind == RB_SET || workload->bindings == 0 || errands[e].agent == NULL) {
        return 0;
    }
    return median(errands[workload->kind == RB_GET ? e : e + 1].trip, ROUNDS);
}

static void print_line(size_t b, size_t w)
{
    double floor = median(floor_rounds, ROUNDS), library = library_time(b, w);
    double snmpd = snmpd_time(&bridges[b].workloads[w]);

    printf("  %-34s", bridges[b].workloads[w].title);
    for (size_t i = 0; i < IMPLEMENTATIONS; i++) {
        printf(" %12.0f", median(jobs[b][w][i].nanoseconds, ROUNDS));
    }
    printf(" %9.2f", library / floor);
    if (snmpd > 0) {
        printf(" %9.3f\n", library / snmpd);
    } else {
        printf(" %9s\n", "-");
    }
}

static void print_table(void)
{
    printf("nanoseconds per call, median of %d rounds; memcmp of %u octets: %.0f\n\n", ROUNDS, RB_BLOCK_SIZE,
           median(floor_rounds, ROUNDS));
    printf("  %-34s", "");
    for (size_t i = 0; i < IMPLEMENTATIONS; i++) {
        printf(" %12s", implementations[i].title);
    }
    printf(" %9s %9s\n", ": memcmp", ": snmpd");
    for (size_t b = 0; b < BRIDGES; b++) {
        printf("%s\n", bridges[b].title);
        for (size_t w = 0; w < WORKLOADS; w++) {
            print_line(b, w);
        }
    }
}

static void print_errands(void)
{
    printf("\nnanoseconds of a request over loopback, median of %d rounds of %d\n\n", ROUNDS, TRIPS);
    printf("  %-68s %12s %12s\n", "", "round trip", "agent's own");
    for (size_t e = 0; e < ERRANDS; e++) {
        if (errands[e].agent != NULL) {
            printf("  %-68s %12.0f %12.0f\n", errands[e].title, median(errands[e].trip, ROUNDS),
                   median(errands[e].processor, ROUNDS));
        }
    }
}

static void print_depth(void)
{
    struct depth depth = stack_depth(bridges, BRIDGES);

    printf("\nstack: rb_answer %zu octets (%s), rb_setup %zu octets\n\n", depth.answer, depth.what, depth.setup);
}

/* Where the slowest get of one binding stands in the table. */
static void find_slowest_get(size_t *bridge, size_t *workload)
{
    double slowest = 0;

    for (size_t b = 0; b < BRIDGES; b++) {
        for (size_t w = 0; w < WORKLOADS; w++) {
            const struct workload *is = &bridges[b].workloads[w];
            if (is->kind == RB_GET && is->bindings == 1 && library_time(b, w) > slowest) {
                slowest = library_time(b, w);
                *bridge = b;
                *workload = w;
            }
        }
    }
}

/* The two things that are asked of a get with one binding, both of the slowest one. */
static void print_rules(void)
{
    size_t b = 0, w = 0;

    find_slowest_get(&b, &w);
    double slowest = library_time(b, w), floor = median(floor_rounds, ROUNDS);
    printf("slowest get of one binding: %s, %s\n", bridges[b].title, bridges[b].workloads[w].title);
    printf("%s  it costs %.2f times the memcmp of a block; at most %d are asked for\n",
           slowest <= MOST_MEMCMPS * floor ? "PASS" : "NOT ", slowest / floor, MOST_MEMCMPS);
    if (errands[SNMP_GET_1].agent == NULL) {
        printf("----  snmpd was left out, so nothing is said of a third of its get\n");
        return;
    }
    double snmpd = median(errands[SNMP_GET_1].trip, ROUNDS);
    printf("%s  it costs %.3f of snmpd's get; at most 1/%d is asked for\n",
           PARTS_OF_SNMPD * slowest <= snmpd ? "PASS" : "NOT ", slowest / snmpd, PARTS_OF_SNMPD);
}

/* What snmpd's own process takes for a get of so many bindings, or 0. */
static double own_time(size_t errand)
{
    return errands[errand].agent == NULL ? 0 : median(errands[errand].processor, ROUNDS);
}

/* The calls of one workload on 64 ports with full tables, and its title. */
static int play_one(size_t number)
{
    REQUIRE(number < WORKLOADS, "no such workload");
    make_bridge(&bridges[0], "64 ports, full", 64, true);
    play_counted(&bridges[0], &bridges[0].workloads[number]);
    printf("%s\n", bridges[0].workloads[number].title);
    return 0;
}

/* The check of one batch, and its title. */
static int play_batch(size_t number)
{
    make_bridge(&bridges[0], "64 ports, fresh", 64, false);
    make_bridge(&bridges[1], "64 ports, full", 64, true);
    check_one(number, &bridges[0], &bridges[1]);
    return 0;
}

int main(int argc, char **argv)
{
    struct agent snmpd, agent;

    if (argc == 3 && strcmp(argv[1], "calls") == 0) {
        return play_one(strtoul(argv[2], NULL, 10));
    }
    if (argc == 3 && strcmp(argv[1], "batch") == 0) {
        return play_batch(strtoul(argv[2], NULL, 10));
    }
    REQUIRE(argc == 2 || argc == 4, "usage: bench AGENT [PORT PROCESS]");
    make_bridge(&bridges[0], "4 ports, fresh", 4, false);
    make_bridge(&bridges[1], "4 ports, full", 4, true);
    make_bridge(&bridges[2], "64 ports, fresh", 64, false);
    make_bridge(&bridges[3], "64 ports, full", 64, true);
    for (size_t b = 0; b < BRIDGES; b++) {
        for (size_t w = 0; w < WORKLOADS; w++) {
            prepare(&bridges[b], &bridges[b].workloads[w], jobs[b][w]);
        }
    }
    if (argc == 4) {
        snmpd = connect_agent((pid_t)strtol(argv[3], NULL, 10), (uint16_t)strtoul(argv[2], NULL, 10));
    }
    agent = start_agent(argv[1], &bridges[BRIDGES - 1]);
    prepare_errands(argc == 4 ? &snmpd : NULL, &agent, &bridges[BRIDGES - 1]);
    for (size_t round = 0; round < ROUNDS; round++) {
        run_round(round);
    }
    stop_agent(&agent);
    print_table();
    print_errands();
    print_depth();
    print_datagrams(bridges, BRIDGES, (struct own_times){own_time(SNMP_GET_1), own_time(SNMP_GET_16)});
    print_walks(&bridges[BRIDGES - 1]);
    print_rules();
    print_tallies();
    print_batches(&bridges[2], &bridges[3]);
    return 0;
}
