/* The bridge's block, kept in a file where one is named, so that whatever ends the agent leaves the block of before or
 * of after a set. */
#ifndef AGENT_STATE_H
#define AGENT_STATE_H

#include "command.h"
#include "refbridge.h"

struct state {
    uint8_t block[RB_BLOCK_SIZE];
    const char *file; /* NULL: the block is kept nowhere */
};

/* Loads the file's block, or sets up the bridge of the command where there is no file. */
bool state_start(struct state *state, const char *file, const struct command *bridge, struct complaint *why);

/* Writes the block beside the file, and then in its place. */
bool state_keep(const struct state *state, struct complaint *why);

#endif
