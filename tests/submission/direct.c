/* Plays 41,000 commands directly through the library's calls, in one process and on one block.
 *
 * Every thousand is made of the same four bridges and the same kinds of commands, so that its time can be compared with
 * that of the first; values differ. Prints the time of the first, the middle and the last thousand, and the resident
 * memory before and after. Status 1 where a case is answered wrong or memory grew. */
#define _DEFAULT_SOURCE
#include <time.h>

#include "requests.h"

enum { THOUSANDS = 41, BRIDGES = 4, COMMANDS = 1000 / BRIDGES, MARGIN_KIB = 256 };

static const uint32_t port_counts[BRIDGES] = {1, 4, 24, 64};
static uint8_t block[RB_BLOCK_SIZE], room[RB_MESSAGE_MAX];
static unsigned played, refused, faulted;

/* The name that a walk has come to. */
static struct name walked;

/* Plays one case, which must come to this number and this status. Returns the answer's length. */
static size_t play(const struct octets *request, uint32_t number, uint32_t status)
{
    rb_result got = rb_answer(block, sizeof block, request->at, request->count, room, sizeof room);

    played++;
    REQUIRE(got.number == number, "case %u: number %u, not %u", played, got.number, number);
    if (number != RB_ANSWERED) {
        refused++;
        return 0;
    }
    REQUIRE(room[STATUS_AT] == status, "case %u: status %u, not %u", played, room[STATUS_AT], status);
    faulted += status != RB_NO_ERROR;
    return got.count;
}

static void play_set(const char *object, const uint32_t *index, size_t count, uint32_t value, uint32_t status)
{
    struct octets request;

    request_start(&request, RB_SET, played);
    put_number(&request, object, index, count, value);
    play(&request, RB_ANSWERED, status);
}

/* Asks for one name, and gives the binding of the answer. */
static struct binding play_ask(uint8_t kind, const struct name *name)
{
    struct octets request;

    request_start(&request, kind, played);
    ask_for(&request, name);
    return only_binding(room, play(&request, RB_ANSWERED, RB_NO_ERROR));
}

/* A get that must give this number. */
static void play_get(const char *object, uint32_t value)
{
    struct name name = name_of(object, INDEX(0));
    struct binding got = play_ask(RB_GET, &name);
    const uint8_t *octets = got.value.octets;
    uint32_t number =
        (uint32_t)octets[0] << 24 | (uint32_t)octets[1] << 16 | (uint32_t)octets[2] << 8 | (uint32_t)octets[3];

    REQUIRE(got.value.count == 4 && number == value, "case %u: the number %u, not %u", played, number, value);
}

/* A get of sixteen columns of a VLAN row and of its neighbours. */
static void play_get_many(uint32_t vlan)
{
    static const char *const columns[] = {"dot1qVlanStaticName", "dot1qVlanStaticEgressPorts",
                                          "dot1qVlanForbiddenEgressPorts", "dot1qVlanStaticUntaggedPorts",
                                          "dot1qVlanStaticRowStatus"};
    struct octets request;

    request_start(&request, RB_GET, played);
    for (uint32_t i = 0; i < RB_BINDINGS_MAX; i++) {
        struct name name = name_of(columns[i % 5], INDEX(vlan + i / 5));
        ask_for(&request, &name);
    }
    play(&request, RB_ANSWERED, RB_NO_ERROR);
}

/* One step of a walk that starts again at the end. */
static void play_next(void)
{
    struct binding next = play_ask(RB_GET_NEXT, &walked);

    walked = next.value.tag == RB_TAG_END_OF_MIB_VIEW ? name_of("dot1dBridge", NULL, 0) : next.name;
}

/* A get that lacks its last octet. */
static void play_cut(void)
{
    struct octets request;
    struct name name = name_of("dot1dBaseNumPorts", INDEX(0));

    request_start(&request, RB_GET, played);
    ask_for(&request, &name);
    request.count--;
    play(&request, RB_FIELD_CUT, RB_NO_ERROR);
}

/* A case of one of ten kinds. Two of ten leave a row, so that the tables grow while a bridge is played. */
static void play_case(uint32_t ports, uint32_t i, uint32_t variant)
{
    switch (i % 10) {
    case 0:
        play_get("dot1dBaseNumPorts", ports);
        break;
    case 1:
        play_set("dot1dStpPriority", INDEX(0), (variant * 250 + i) % 65536, RB_NO_ERROR);
        break;
    case 2:
        play_get("dot1dStpPriority", (variant * 250 + i - 1) % 65536);
        break;
    case 3:
        play_set("dot1qVlanStaticRowStatus", INDEX(2 + i), 4 + variant % 2, RB_NO_ERROR);
        break;
    case 4:
        play_set("dot1qVlanStaticRowStatus", INDEX(3000 + i), 6, RB_NO_ERROR);
        break;
    case 5:
        play_get_many(i);
        break;
    case 6:
        play_set("dot1dStpPortPathCost", INDEX(ports), 0, RB_WRONG_VALUE);
        break;
    case 7:
        play_cut();
        break;
    case 8:
        play_set("dot1dStaticStatus", INDEX(2, 0, variant, i, 0, 1, i % (ports + 1)), 3 + variant % 3, RB_NO_ERROR);
        break;
    default:
        play_next();
    }
}

/* The commands of one thousand: a set-up and 249 more, on each of four bridges. */
static void play_thousand(uint32_t variant)
{
    for (size_t b = 0; b < BRIDGES; b++) {
        const uint8_t address[RB_ADDRESS_SIZE] = {0, 1, 2, 3, 4, (uint8_t)variant};
        uint32_t ports = port_counts[b];

        played++;
        REQUIRE(rb_setup(block, sizeof block, ports, RB_EDITION_OLD, RB_DEVICE_TRANSPARENT, address, sizeof address).number == RB_ANSWERED, "set-up");
        walked = name_of("dot1dBridge", NULL, 0);
        for (uint32_t i = 1; i < COMMANDS; i++) {
            play_case(ports, i, variant);
        }
    }
}

/* Processor time, so that other programs on the machine do not count. */
static double milliseconds(void)
{
    struct timespec now;

    clock_gettime(CLOCK_PROCESS_CPUTIME_ID, &now);
    return (double)now.tv_sec * 1e3 + (double)now.tv_nsec / 1e6;
}

/* The process's resident memory in KiB. */
static long resident(void)
{
    FILE *file = fopen("/proc/self/status", "r");
    char line[256];
    long size = -1;

    REQUIRE(file != NULL, "the system does not tell the resident memory");
    while (size < 0 && fgets(line, sizeof line, file) != NULL) {
        if (strncmp(line, "VmRSS:", 6) == 0) {
            size = strtol(line + 6, NULL, 10);
        }
    }
    fclose(file);
    REQUIRE(size > 0, "the system does not tell the resident memory");
    return size;
}

int main(void)
{
    double times[THOUSANDS];

    /* A thousand that is not counted, so that code and buffers are in memory before it is measured. */
    play_thousand(THOUSANDS);
    resident();
    played = refused = faulted = 0;
    long before = resident();
    for (uint32_t i = 0; i < THOUSANDS; i++) {
        double start = milliseconds();
        play_thousand(i);
        times[i] = milliseconds() - start;
    }
    long after = resident();

    printf("%u commands played through rb_answer and rb_setup: %u refused, %u at fault, as expected\n", played, refused,
           faulted);
    printf("milliseconds per thousand commands: first %.1f, middle %.1f, last %.1f\n", times[0], times[THOUSANDS / 2],
           times[THOUSANDS - 1]);
    printf("resident memory: %ld KiB before, %ld KiB after\n", before, after);
    REQUIRE(played == THOUSANDS * 1000, "not %u commands", THOUSANDS * 1000);
    REQUIRE(labs(after - before) <= MARGIN_KIB, "the resident memory changed by over %d KiB", MARGIN_KIB);
    return 0;
}
