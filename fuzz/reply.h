/* What must hold of an answer, whatever the bridge holds. */
#ifndef FUZZ_REPLY_H
#define FUZZ_REPLY_H

#include "message.h"

/* What says which instances and values a bridge can have. */
struct bridge_kind {
    uint32_t ports;
    uint32_t edition;
    uint32_t device;
};

/* What is wrong with an answer to a request that was answered, on a bridge of this kind, in words, or NULL. */
const char *reply_flaw(const struct octets *request, const uint8_t *room, size_t count, struct bridge_kind kind);

/* Counts what an answer shows: its kind, status and index, and the objects and contents in it. */
void reply_outcomes(const struct octets *request, const uint8_t *room, size_t count);

#endif
