/* The switch under test: requests go out as SNMPv2c datagrams, and only the answer to the last one comes back. */
#ifndef NIGHT_LINK_H
#define NIGHT_LINK_H

#include "net.h"
#include "refbridge.h"
#include "text.h"

struct link {
    int socket;
    struct peer peer;
    const char *community;
    int timeout;       /* milliseconds */
    unsigned retries;  /* of a get or get-next; a set is sent once */
    uint32_t id;       /* of the last request; no id is used twice */
    size_t ids_left;   /* before the next ones must be noted */
    size_t late;       /* answers with another id */
    size_t strange;    /* from another source */
    size_t foreign;    /* of another community */
    size_t unreadable; /* that are no response */
    uint32_t refusal;  /* of the last answer, where the library has no message for it */
};

enum link_outcome {
    LINK_SILENT,   /* no answer came */
    LINK_ANSWERED, /* the answer is a message, with the request's own id */
    LINK_UNLIKE    /* the switch answered with a datagram that the library has no message for: its first octets */
};

/* Asks the switch. */

bool link_open(struct link *link, const char *words, struct complaint *why);

enum link_outcome link_ask(struct link *link, const struct octets *request, uint8_t answer[RB_MESSAGE_MAX],
                           size_t *count);

void link_close(struct link *link);

#endif
