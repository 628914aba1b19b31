/* One command of a case file. */
#ifndef HOST_COMMAND_H
#define HOST_COMMAND_H

#include "names.h"
#include "text.h"

/* The octets that the player can lend as a block and as a room: over what is legal, so that more can be tried. */
#define BLOCK_LENT_MAX 40960u
#define ROOM_LENT_MAX 4096u

enum command_kind {
    COMMAND_CASE,
    COMMAND_BRIDGE,
    COMMAND_RESET,
    COMMAND_GET,
    COMMAND_NEXT,
    COMMAND_WALK,
    COMMAND_SET,
    COMMAND_RAW,
    COMMAND_POKE,
    COMMAND_SIZE,
    COMMAND_ROOM,
    COMMAND_TO_256THS,
    COMMAND_TO_HUNDREDTHS
};

struct command {
    enum command_kind kind;
    uint32_t number;      /* a case's id, ports, an offset, a length, a timer */
    uint32_t edition;     /* of a bridge */
    uint32_t device;      /* of a bridge */
    struct octets octets; /* a request, an address, octets to poke */
    struct name name;     /* where a walk starts */
    struct text title;    /* of a case */
};

/* Reads the command of a line. A request that is made here has the line's number as its id, so that an answer can be
 * traced to its line. */
bool command_read(struct text line, uint32_t id, struct command *command, struct complaint *why);

/* True for a command that calls the library: those are counted. */
bool command_calls(enum command_kind kind);

/* True for a command that sets a length for the next call that takes it. */
bool command_lends(enum command_kind kind);

/* True for a call on a block, which takes the lengths that were set. */
bool command_takes_lent(enum command_kind kind);

/* True for a command that works on a block, so that a bridge must have been set up before it. */
bool command_needs_bridge(enum command_kind kind);

#endif
