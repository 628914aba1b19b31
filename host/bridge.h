/* The reference bridge under play: the octets that the library is lent, its calls, and what every call must keep. */
#ifndef HOST_BRIDGE_H
#define HOST_BRIDGE_H

#include "command.h"
#include "text.h"

struct bridge {
    uint32_t ports;    /* of the last set-up that was accepted; 0 before */
    size_t block_lent; /* lengths that are given to the library */
    size_t room_lent;
    uint8_t block[BLOCK_LENT_MAX];
    uint8_t before[BLOCK_LENT_MAX]; /* the block before the last call */
    uint8_t room[ROOM_LENT_MAX];
};

/* What a call returned, and the first thing that it should have kept and did not, in words, or NULL. */
struct reply {
    uint32_t number;
    uint32_t count;
    uint32_t offset;
    const char *flaw;
};

/* All octets 0, lengths as they should be. */
void bridge_clear(struct bridge *bridge);

/* The lengths as they should be again. */
void bridge_lend_whole(struct bridge *bridge);

/* The bridge of a command `bridge`. */
struct reply bridge_setup(struct bridge *bridge, const struct command *command);

/* The answer's octets are at the start of the room. */
struct reply bridge_answer(struct bridge *bridge, const struct octets *request);

/* Static rows of status 4 go. */
struct reply bridge_reset(struct bridge *bridge);

struct reply bridge_to_256ths(uint32_t hundredths);
struct reply bridge_to_hundredths(uint32_t ticks);

/* True where the last call changed the block. */
bool bridge_changed(const struct bridge *bridge);

#endif
