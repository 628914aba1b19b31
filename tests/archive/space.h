/* Octets between two pages that must not be touched: one octet read or written outside them ends the program. */
#ifndef SPACE_H
#define SPACE_H

#include <stddef.h>
#include <stdint.h>

/* So many octets, a multiple of a page. */
uint8_t *make_space(size_t size);

/* Octets in a space of their own, with a copy of what they held before a call. */
struct guarded {
    uint8_t *space;
    size_t size; /* of the space */
    uint8_t *octets;
    size_t length;
    uint8_t *before;
};

void guarded_make(struct guarded *g, size_t size);

/* Puts octets at the front or at the back of the space. */
void lend(struct guarded *g, const uint8_t *octets, size_t length, int back);

/* True where the octets from one place to another, or to the end, are those that were lent. */
int kept_part(const struct guarded *g, size_t from, size_t end);
int kept(const struct guarded *g, size_t from);

#endif
