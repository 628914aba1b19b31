#define _DEFAULT_SOURCE
#include "agent.h"

#include <arpa/inet.h>
#include <limits.h>
#include <netinet/in.h>
#include <signal.h>
#include <sys/prctl.h>
#include <sys/socket.h>
#include <sys/time.h>
#include <sys/wait.h>
#include <unistd.h>

#include "datagram.h"

/* Tags of the basic encoding rules, as SNMP uses them. */
enum {
    BER_INTEGER = 0x02,
    BER_STRING = 0x04,
    BER_NULL = 0x05,
    BER_NAME = 0x06,
    BER_SEQUENCE = 0x30,
    BER_GET = 0xA0,
    BER_GET_NEXT = 0xA1,
    BER_RESPONSE = 0xA2
};

static const char community[] = "public";

/* A message is written from its end to its start, since a length stands before what it counts. */
struct writer {
    uint8_t octets[DATAGRAM_MAX];
    size_t start;
};

static void put_before(struct writer *w, const void *octets, size_t length)
{
    REQUIRE(length <= w->start, "an SNMP request is too long");
    w->start -= length;
    memcpy(w->octets + w->start, octets, length);
}

static void put_octet_before(struct writer *w, uint8_t octet)
{
    put_before(w, &octet, 1);
}

/* The tag and length of all that was written since `end`. */
static void put_header_before(struct writer *w, uint8_t tag, size_t end)
{
    size_t length = end - w->start;

    put_octet_before(w, (uint8_t)length);
    if (length > 255) {
        put_octet_before(w, (uint8_t)(length >> 8));
        put_octet_before(w, 0x82);
    } else if (length > 127) {
        put_octet_before(w, 0x81);
    }
    put_octet_before(w, tag);
}

static void put_integer_before(struct writer *w, uint8_t value)
{
    size_t end = w->start;

    put_octet_before(w, value);
    put_header_before(w, BER_INTEGER, end);
}

/* A binding of 1.3.6.1.2.1.11.OBJECT.0, or without the 0 for get-next. */
static void put_counter_before(struct writer *w, uint8_t object, bool instance)
{
    const uint8_t name[] = {0x2B, 6, 1, 2, 1, 11, object, 0};
    size_t end = w->start, name_end;

    put_header_before(w, BER_NULL, end);
    name_end = w->start;
    put_before(w, name, sizeof name - (instance ? 0 : 1));
    put_header_before(w, BER_NAME, name_end);
    put_header_before(w, BER_SEQUENCE, end);
}

struct datagram snmp_request(enum rb_kind kind, unsigned bindings)
{
    static const uint8_t objects[RB_BINDINGS_MAX] = {1, 2, 3, 4, 5, 6, 8, 9, 10, 11, 12, 13, 14, 15, 16, 17};
    struct writer w = {.start = DATAGRAM_MAX};
    struct datagram request;
    size_t end = w.start;

    for (unsigned i = bindings; i > 0; i--) {
        put_counter_before(&w, objects[i - 1], kind == RB_GET);
    }
    put_header_before(&w, BER_SEQUENCE, end);
    put_integer_before(&w, 0); /* index */
    put_integer_before(&w, 0); /* status */
    put_integer_before(&w, 1); /* request id */
    put_header_before(&w, kind == RB_GET ? BER_GET : BER_GET_NEXT, end);
    size_t community_end = w.start;
    put_before(&w, community, sizeof community - 1);
    put_header_before(&w, BER_STRING, community_end);
    put_integer_before(&w, 1); /* version: SNMPv2c */
    put_header_before(&w, BER_SEQUENCE, end);
    request.length = end - w.start;
    memcpy(request.octets, w.octets + w.start, request.length);
    return request;
}

/* The octets of a tag and a length, by the length's first octet. */
static size_t header_octets(const uint8_t *field)
{
    return field[1] < 0x80 ? 2 : 2 + (size_t)(field[1] & 0x7F);
}

struct datagram as_datagram(const struct octets *request)
{
    struct datagram datagram;
    uint32_t number = request_datagram(request, 1, community, datagram.octets, &datagram.length);

    REQUIRE(number == RB_ANSWERED, "a request is no datagram: %u", (unsigned)number);
    return datagram;
}

bool snmp_answered(const struct datagram *answer)
{
    const uint8_t *version = answer->octets + header_octets(answer->octets);
    const uint8_t *pdu = version + 11; /* three octets of version, eight of community */
    const uint8_t *status;

    if (answer->length < 32 || version > answer->octets + 4 || pdu[0] != BER_RESPONSE || header_octets(pdu) > 4) {
        return false;
    }
    status = pdu + header_octets(pdu) + 3; /* after the request id, which has one octet */
    return status[0] == BER_INTEGER && status[1] == 1 && status[2] == 0;
}

static struct sockaddr_in loopback(uint16_t port)
{
    struct sockaddr_in place = {.sin_family = AF_INET, .sin_port = htons(port)};

    place.sin_addr.s_addr = htonl(INADDR_LOOPBACK);
    return place;
}

struct agent connect_agent(pid_t process, uint16_t port)
{
    struct agent agent = {process, socket(AF_INET, SOCK_DGRAM, 0)};
    struct sockaddr_in place = loopback(port);
    struct timeval patience = {.tv_sec = 2};

    REQUIRE(agent.socket >= 0, "no socket");
    REQUIRE(setsockopt(agent.socket, SOL_SOCKET, SO_RCVTIMEO, &patience, sizeof patience) == 0, "no time limit");
    REQUIRE(connect(agent.socket, (struct sockaddr *)&place, sizeof place) == 0, "no connection to port %u", port);
    return agent;
}

bool round_trip(const struct agent *agent, const uint8_t *request, size_t length, struct datagram *answer)
{
    ssize_t got;

    if (send(agent->socket, request, length, 0) != (ssize_t)length) {
        return false;
    }
    got = recv(agent->socket, answer->octets, sizeof answer->octets, 0);
    answer->length = got > 0 ? (size_t)got : 0;
    return got > 0;
}

/* A bridge's block in a file beside the program, from which the agent takes it. */
static void write_block(const char *file, const struct bridge *bridge)
{
    FILE *out = fopen(file, "wb");

    REQUIRE(out != NULL && fwrite(bridge->block, 1, RB_BLOCK_SIZE, out) == RB_BLOCK_SIZE && fclose(out) == 0,
            "the block cannot be written: %s", file);
}

/* The port that the agent says that it listens on. */
static uint16_t read_port(int from)
{
    char line[200] = "";
    FILE *said = fdopen(from, "r");
    const char *colon;

    REQUIRE(said != NULL && fgets(line, sizeof line, said) != NULL, "the agent says nothing");
    colon = strrchr(line, ':');
    REQUIRE(colon != NULL && atoi(colon + 1) > 0, "the agent does not listen: %s", line);
    return (uint16_t)atoi(colon + 1); /* the stream stays open, since the agent says its totals there */
}

struct agent start_agent(const char *program, const struct bridge *bridge)
{
    char block[PATH_MAX];
    int said[2];
    pid_t process;

    REQUIRE(snprintf(block, sizeof block, "%s.block", program) < (int)sizeof block, "the agent's path is too long");
    write_block(block, bridge);
    REQUIRE(pipe(said) == 0, "no pipe");
    fflush(NULL);
    process = fork();
    REQUIRE(process >= 0, "no process");
    if (process == 0) {
        prctl(PR_SET_PDEATHSIG, SIGKILL);
        dup2(said[1], STDERR_FILENO);
        execl(program, program, "--listen", "127.0.0.1:0", "--state", block, (char *)NULL);
        _exit(127);
    }
    close(said[1]);
    return connect_agent(process, read_port(said[0]));
}

void stop_agent(const struct agent *agent)
{
    close(agent->socket);
    kill(agent->process, SIGKILL);
    waitpid(agent->process, NULL, 0);
}

uint64_t processor_time(const struct agent *agent)
{
    char path[64];
    unsigned long long time = 0;
    FILE *file;

    snprintf(path, sizeof path, "/proc/%d/schedstat", (int)agent->process);
    file = fopen(path, "r");
    if (file == NULL) {
        return 0;
    }
    if (fscanf(file, "%llu", &time) != 1) {
        time = 0;
    }
    fclose(file);
    return time;
}
