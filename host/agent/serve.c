#define _GNU_SOURCE /* ppoll */
#include "serve.h"

#include <errno.h>
#include <poll.h>
#include <signal.h>
#include <string.h>
#include <time.h>
#include <unistd.h>

#include "codes.h"
#include "net.h"

#define DATAGRAM_MAX 65536
#define CHUNK_MAX 512
#define FRAME_HEADER 5u /* 7F, a length of 2, and the message's length */

static volatile sig_atomic_t ending;

static void end(int number)
{
    (void)number;
    ending = 1;
}

/* A line of the log: when, what, from where, how long. */
static void note(struct agent *agent, const char *what, uint32_t number, const char *from, size_t count)
{
    char when[32];
    time_t now = time(NULL);
    const char *name = refusal_name(number);

    if (agent->log == NULL) {
        return;
    }
    strftime(when, sizeof when, "%Y-%m-%dT%H:%M:%SZ", gmtime(&now));
    fprintf(agent->log, "%s %s", when, what);
    if (number != RB_ANSWERED) {
        fprintf(agent->log, " %u%s%s%s", (unsigned)number, name == NULL ? "" : " (", name == NULL ? "" : name,
                name == NULL ? "" : ")");
    }
    fprintf(agent->log, " from %s, %zu octets\n", from, count);
    fflush(agent->log);
}

static void refuse(struct agent *agent, uint32_t number, const char *from, size_t count)
{
    agent->refused[number < REFUSALS_MAX ? number : 0]++;
    note(agent, "refused", number, from, count);
}

/* Answers a message, and keeps the block where a set was accepted: an answer goes out only for what is kept. */
static bool answer(struct agent *agent, const uint8_t *message, size_t count, uint8_t *room, rb_result *result,
                   struct complaint *why)
{
    static uint8_t before[RB_BLOCK_SIZE];

    memcpy(before, agent->state.block, RB_BLOCK_SIZE);
    *result = rb_answer(agent->state.block, RB_BLOCK_SIZE, message, count, room, RB_MESSAGE_MAX);
    return memcmp(before, agent->state.block, RB_BLOCK_SIZE) == 0 || state_keep(&agent->state, why);
}

static bool is_ours(const struct agent *agent, const uint8_t *datagram, const rb_datagram *read)
{
    return read->community_len == strlen(agent->community) &&
           memcmp(datagram + read->community_at, agent->community, read->community_len) == 0;
}

/* Answers one datagram; `reply` is 0 where nothing is to be sent. */
static bool answer_datagram(struct agent *agent, const uint8_t *datagram, size_t count, const char *from, uint8_t *out,
                            size_t *reply, struct complaint *why)
{
    static uint8_t message[RB_MESSAGE_MAX], room[RB_MESSAGE_MAX];
    rb_datagram read = rb_from_datagram(datagram, count, message, sizeof message);
    rb_result result;

    *reply = 0;
    if (read.number != RB_ANSWERED) {
        refuse(agent, read.number, from, count);
        return true;
    }
    if (!is_ours(agent, datagram, &read)) {
        agent->strangers++;
        note(agent, "another community", RB_ANSWERED, from, count);
        return true;
    }
    if (!answer(agent, message, read.count, room, &result, why)) {
        return false;
    }
    if (result.number == RB_ANSWERED) {
        result =
            rb_to_datagram(room, result.count, datagram + read.community_at, read.community_len, out, RB_MESSAGE_MAX);
    }
    if (result.number != RB_ANSWERED) {
        refuse(agent, result.number, from, count);
        return true;
    }
    *reply = result.count;
    return true;
}

static bool take_datagram(struct agent *agent, struct complaint *why)
{
    static uint8_t datagram[DATAGRAM_MAX], out[RB_MESSAGE_MAX];
    struct peer peer = {.length = sizeof peer.address};
    char from[PEER_WORDS];
    size_t reply;
    ssize_t got = recvfrom(agent->socket, datagram, sizeof datagram, 0, (struct sockaddr *)&peer.address, &peer.length);

    if (got < 0) {
        return true; /* an error of an earlier datagram, or a signal */
    }
    agent->received++;
    peer_print(&peer, from);
    if (!answer_datagram(agent, datagram, (size_t)got, from, out, &reply, why)) {
        return false;
    }
    if (reply > 0 &&
        sendto(agent->socket, out, reply, 0, (struct sockaddr *)&peer.address, peer.length) == (ssize_t)reply) {
        agent->answered++;
    }
    return true;
}

/* Sends a message in its frame. */
static bool send_frame(struct agent *agent, const uint8_t *message, size_t count, struct complaint *why)
{
    uint8_t frame[FRAME_HEADER + RB_MESSAGE_MAX] = {0x7F, 0, 2, (uint8_t)(count >> 8), (uint8_t)count};

    memcpy(frame + FRAME_HEADER, message, count);
    if (write(agent->serial_out, frame, FRAME_HEADER + count) != (ssize_t)(FRAME_HEADER + count)) {
        return complain(why, "the serial line cannot be written: %s", strerror(errno));
    }
    agent->answered++;
    return true;
}

static bool take_message(struct agent *agent, const uint8_t *message, size_t count, struct complaint *why)
{
    static uint8_t room[RB_MESSAGE_MAX];
    rb_result result;

    agent->received++;
    if (!answer(agent, message, count, room, &result, why)) {
        return false;
    }
    if (result.number != RB_ANSWERED) {
        refuse(agent, result.number, "the serial line", count);
        return true;
    }
    return send_frame(agent, room, result.count, why);
}

/* Takes what the serial line has. After 21 or 22 the rest of it is dropped, and the stream starts anew. */
static bool take_chunk(struct agent *agent, struct complaint *why)
{
    static uint8_t chunk[CHUNK_MAX], message[RB_MESSAGE_MAX];
    ssize_t got = read(agent->serial_in, chunk, sizeof chunk);
    size_t at = 0;
    rb_console taken;

    if (got == 0 || (got < 0 && errno != EINTR)) {
        agent->serial_in = -1;
        return true;
    }
    for (; got > 0 && at < (size_t)got; at += taken.taken) {
        taken = rb_console_take(agent->console, RB_CONSOLE_SIZE, chunk + at, (size_t)got - at, message, sizeof message);
        if (taken.number != RB_ANSWERED) {
            refuse(agent, taken.number, "the serial line", (size_t)got - at);
            rb_console_reset(agent->console, RB_CONSOLE_SIZE);
            return true;
        }
        if (taken.complete != 0 && !take_message(agent, message, taken.count, why)) {
            return false;
        }
    }
    return true;
}

bool serve(struct agent *agent, struct complaint *why)
{
    struct sigaction action = {.sa_handler = end};
    sigset_t ends, others;

    sigaction(SIGTERM, &action, NULL);
    sigaction(SIGINT, &action, NULL);
    /* A signal to end is taken while the agent waits, and at no other time: one that comes between the test and the waiting would be passed over. */
    sigemptyset(&ends);
    sigaddset(&ends, SIGTERM);
    sigaddset(&ends, SIGINT);
    sigprocmask(SIG_BLOCK, &ends, &others);
    sigdelset(&others, SIGTERM);
    sigdelset(&others, SIGINT);
    while (!ending && (agent->socket >= 0 || agent->serial_in >= 0)) {
        struct pollfd waits[2] = {{.fd = agent->socket, .events = POLLIN}, {.fd = agent->serial_in, .events = POLLIN}};

        if (ppoll(waits, 2, NULL, &others) < 0) {
            continue; /* a signal */
        }
        if ((waits[0].revents & POLLIN) != 0 && !take_datagram(agent, why)) {
            return false;
        }
        if (waits[1].revents != 0 && !take_chunk(agent, why)) {
            return false;
        }
    }
    return true;
}

void serve_totals(const struct agent *agent)
{
    fprintf(stderr, "agent: %zu received, %zu answered, %zu of another community\n", agent->received, agent->answered,
            agent->strangers);
    for (uint32_t i = 0; i < REFUSALS_MAX; i++) {
        if (agent->refused[i] > 0) {
            const char *name = refusal_name(i);

            fprintf(stderr, "agent: %zu refused with %u%s%s%s\n", agent->refused[i], (unsigned)i,
                    name == NULL ? "" : " (", name == NULL ? "" : name, name == NULL ? "" : ")");
        }
    }
}
