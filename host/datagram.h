/* Requests as SNMPv2c datagrams, and what a response starts with. */
#ifndef HOST_DATAGRAM_H
#define HOST_DATAGRAM_H

#include "refbridge.h"
#include "text.h"

/* Writes a request of our form as a datagram with this id and community. Returns 0, or the number that refuses it. */
uint32_t request_datagram(const struct octets *request, uint32_t id, const char *community, uint8_t *out, size_t *count);

/* True where a datagram starts as a response with this id and community, whatever follows: an answer to the request,
 * also where the library has no message for it. */
bool datagram_answers(const uint8_t *datagram, size_t count, uint32_t id, const char *community);

#endif
