/* One expected answer of a case file: a line '-> ...' after a command. */
#ifndef HOST_EXPECTED_H
#define HOST_EXPECTED_H

#include "command.h"
#include "message.h"
#include "text.h"

/* Kinds are single bits, so that a command's fitting kinds are a sum. */
enum expected_kind {
    EXPECTED_REFUSED = 1,    /* refused N, or refused N at OFFSET */
    EXPECTED_ACCEPTED = 2,   /* accepted: a set-up, or a set without a fault */
    EXPECTED_STATUS = 4,     /* status N index N */
    EXPECTED_OCTETS = 8,     /* octets HEX: the whole answer */
    EXPECTED_BINDING = 16,   /* NAME = VALUE */
    EXPECTED_CONTENT = 32,   /* noSuchObject, noSuchInstance or endOfMibView, whatever the name */
    EXPECTED_INSTANCES = 64, /* instances N: how many a walk gave */
    EXPECTED_VALUE = 128     /* value N: a converted timer */
};

struct expected {
    enum expected_kind kind;
    uint32_t number; /* refusal, status, instances, value */
    uint32_t index;
    uint32_t offset; /* of a refusal that is expected at one */
    bool has_offset;
    struct octets octets;
    struct binding binding;
};

/* Reads the text after the arrow, for a command of this kind. */
bool expected_read(struct text text, enum command_kind command, struct expected *expected, struct complaint *why);

/* True where the answer's next binding is compared with this line. */
bool expected_is_binding(const struct expected *expected);

#endif
