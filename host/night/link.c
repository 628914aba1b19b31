#define _POSIX_C_SOURCE 200809L
#include "link.h"

#include <errno.h>
#include <poll.h>
#include <stdlib.h>
#include <string.h>
#include <time.h>
#include <unistd.h>

#include "datagram.h"
#include "message.h"

#define DATAGRAM_MAX 65536

bool link_open(struct link *link, const char *words, struct complaint *why)
{
    if (!peer_find(&link->peer, words, why)) {
        return false;
    }
    if (strtoul(strrchr(words, ':') + 1, NULL, 10) == 0) {
        return complain(why, "a switch has a port from 1 on: '%s'", words);
    }
    link->socket = socket(link->peer.address.ss_family, SOCK_DGRAM, 0);
    return link->socket >= 0 || complain(why, "no socket: %s", strerror(errno));
}

void link_close(struct link *link)
{
    close(link->socket);
}

/* A datagram of the switch that the library refuses: an answer all the same where it starts as the one to the last
 * request. */
static enum link_outcome judge_refused(struct link *link, uint32_t number, const uint8_t *datagram, size_t length,
                                       uint8_t *answer, size_t *count)
{
    if (!datagram_answers(datagram, length, link->id, link->community)) {
        link->unreadable++;
        return LINK_SILENT;
    }
    link->refusal = number;
    *count = length < RB_MESSAGE_MAX ? length : RB_MESSAGE_MAX;
    memcpy(answer, datagram, *count);
    return LINK_UNLIKE;
}

/* Judges a datagram that came; what is no answer to the last request is counted and dropped. */
static enum link_outcome judge(struct link *link, const struct peer *from, const uint8_t *datagram, size_t length,
                               uint8_t *answer, size_t *count)
{
    rb_datagram read;
    uint32_t id = 0;

    if (!peer_is(from, &link->peer)) {
        link->strange++;
        return LINK_SILENT;
    }
    read = rb_from_captured(datagram, length, answer, RB_MESSAGE_MAX);
    if (read.number != RB_ANSWERED || answer[KIND_AT] != RB_RESPONSE) {
        return judge_refused(link, read.number, datagram, length, answer, count);
    }
    if (read.community_len != strlen(link->community) ||
        memcmp(datagram + read.community_at, link->community, read.community_len) != 0) {
        link->foreign++;
        return LINK_SILENT;
    }
    for (size_t i = 0; i < ID_SIZE; i++) {
        id = id << 8 | answer[ID_AT + i];
    }
    if (id != link->id) {
        link->late++;
        return LINK_SILENT;
    }
    *count = read.count;
    return LINK_ANSWERED;
}

static long milliseconds(void)
{
    struct timespec now;

    clock_gettime(CLOCK_MONOTONIC, &now);
    return (long)now.tv_sec * 1000 + now.tv_nsec / 1000000;
}

static enum link_outcome wait_answer(struct link *link, uint8_t *answer, size_t *count)
{
    static uint8_t datagram[DATAGRAM_MAX];
    long end = milliseconds() + link->timeout, left;

    while ((left = end - milliseconds()) >= 0) {
        struct pollfd waits = {.fd = link->socket, .events = POLLIN};
        struct peer from = {.length = sizeof from.address};
        enum link_outcome outcome;
        ssize_t got;

        if (poll(&waits, 1, (int)left) <= 0) {
            continue; /* the time is over, or a signal came */
        }
        got = recvfrom(link->socket, datagram, sizeof datagram, 0, (struct sockaddr *)&from.address, &from.length);
        outcome = got < 0 ? LINK_SILENT : judge(link, &from, datagram, (size_t)got, answer, count);
        if (outcome != LINK_SILENT) {
            return outcome;
        }
    }
    return LINK_SILENT;
}

enum link_outcome link_ask(struct link *link, const struct octets *request, uint8_t answer[RB_MESSAGE_MAX],
                           size_t *count)
{
    static uint8_t datagram[RB_MESSAGE_MAX];
    unsigned tries = request_kind(request) == RB_SET ? 1 : 1 + link->retries;
    enum link_outcome outcome = LINK_SILENT;
    size_t length;

    for (; outcome == LINK_SILENT && tries > 0 && link->ids_left > 0; tries--) {
        link->id++;
        link->ids_left--;
        if (request_datagram(request, link->id, link->community, datagram, &length) != RB_ANSWERED) {
            return LINK_SILENT; /* every request was tried before the night */
        }
        sendto(link->socket, datagram, length, 0, (struct sockaddr *)&link->peer.address, link->peer.length);
        outcome = wait_answer(link, answer, count);
    }
    if (outcome == LINK_ANSWERED) {
        memcpy(answer + ID_AT, request->at + ID_AT, ID_SIZE);
    }
    return outcome;
}
