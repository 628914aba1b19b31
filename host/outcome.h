/* What a command came to: compared with an expected answer, printed. */
#ifndef HOST_OUTCOME_H
#define HOST_OUTCOME_H

#include <stdio.h>

#include "expected.h"
#include "message.h"

enum outcome_kind {
    OUTCOME_REFUSED,
    OUTCOME_DONE, /* set-up or reset */
    OUTCOME_CONVERTED,
    OUTCOME_ANSWERED,
    OUTCOME_NO_RESPONSE, /* answered with octets that are no response */
    OUTCOME_WALKED
};

struct outcome {
    enum outcome_kind kind;
    uint32_t number; /* the refusal, the converted timer, or the instances of a walk */
    uint32_t offset; /* where the request broke */
    bool set;        /* the message was a set */
    struct answer answer;
    const uint8_t *octets; /* of the answer, or of the request that was refused, with their count */
    size_t count;
};

/* For every expected answer but a binding's. */
bool outcome_is(const struct outcome *outcome, const struct expected *expected);

/* Prints an outcome in the form of an expected answer. */
void outcome_print(FILE *out, const struct outcome *outcome);

/* Prints it so that it can be compared with an expected answer that it is not: octets beside octets. */
void outcome_print_beside(FILE *out, const struct outcome *outcome, const struct expected *expected);

/* True where the bindings of the answer say it all, and the status nothing more. */
bool outcome_is_bindings(const struct outcome *outcome);

void octets_print(FILE *out, const uint8_t *octets, size_t count);

#endif
