/* Addresses of UDP sockets, written HOST:PORT. */
#ifndef HOST_NET_H
#define HOST_NET_H

#include <sys/socket.h>

#include "text.h"

struct peer {
    struct sockaddr_storage address;
    socklen_t length;
};

#define PEER_WORDS 80

/* Finds the address of HOST:PORT; an IPv6 host stands in brackets. */
bool peer_find(struct peer *peer, const char *words, struct complaint *why);

bool peer_is(const struct peer *a, const struct peer *b);

/* Writes it as HOST:PORT in numbers. */
void peer_print(const struct peer *peer, char words[PEER_WORDS]);

#endif
