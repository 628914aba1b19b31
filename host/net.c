#define _POSIX_C_SOURCE 200809L
#include "net.h"

#include <netdb.h>
#include <netinet/in.h>
#include <stdio.h>
#include <string.h>

enum { PORT_MAX = 65535 };

/* Cuts HOST:PORT at its last colon. getaddrinfo would take a port over 65535 by its last 16 bits. */
static bool cut(const char *words, char host[PEER_WORDS], const char **port)
{
    const char *colon = strrchr(words, ':');
    uint64_t number;
    size_t length;

    if (colon == NULL || (size_t)(colon - words) >= PEER_WORDS) {
        return false;
    }
    length = (size_t)(colon - words);
    if (length >= 2 && words[0] == '[' && words[length - 1] == ']') {
        words++;
        length -= 2;
    }
    memcpy(host, words, length);
    host[length] = '\0';
    *port = colon + 1;
    return length > 0 && text_number((struct text){*port, *port + strlen(*port)}, PORT_MAX, &number);
}

bool peer_find(struct peer *peer, const char *words, struct complaint *why)
{
    struct addrinfo wanted = {.ai_socktype = SOCK_DGRAM}, *found;
    char host[PEER_WORDS];
    const char *port;
    int error;

    if (!cut(words, host, &port)) {
        return complain(why, "an address is written HOST:PORT, with a port up to %d: '%s'", PORT_MAX, words);
    }
    error = getaddrinfo(host, port, &wanted, &found);
    if (error != 0) {
        return complain(why, "there is no address '%s': %s", words, gai_strerror(error));
    }
    memset(peer, 0, sizeof *peer);
    memcpy(&peer->address, found->ai_addr, found->ai_addrlen);
    peer->length = found->ai_addrlen;
    freeaddrinfo(found);
    return true;
}

bool peer_is(const struct peer *a, const struct peer *b)
{
    char left[PEER_WORDS], right[PEER_WORDS];

    peer_print(a, left);
    peer_print(b, right);
    return strcmp(left, right) == 0;
}

void peer_print(const struct peer *peer, char words[PEER_WORDS])
{
    char host[PEER_WORDS - 10], port[8];

    if (getnameinfo((const struct sockaddr *)&peer->address, peer->length, host, sizeof host, port, sizeof port,
                    NI_NUMERICHOST | NI_NUMERICSERV) != 0) {
        snprintf(words, PEER_WORDS, "unknown");
        return;
    }
    snprintf(words, PEER_WORDS, strchr(host, ':') == NULL ? "%s:%s" : "[%s]:%s", host, port);
}
