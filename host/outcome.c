#include "outcome.h"

#include <inttypes.h>
#include <stdio.h>
#include <string.h>

#include "codes.h"
#include "hexdump.h"

static bool is_accepted(const struct outcome *outcome)
{
    return outcome->kind == OUTCOME_DONE ||
           (outcome->kind == OUTCOME_ANSWERED && outcome->set && outcome->answer.status == 0);
}

static bool has_octets(const struct outcome *outcome)
{
    return outcome->kind == OUTCOME_ANSWERED || outcome->kind == OUTCOME_NO_RESPONSE;
}

static bool is_refused(const struct outcome *outcome, const struct expected *expected)
{
    return outcome->kind == OUTCOME_REFUSED && outcome->number == expected->number &&
           (!expected->has_offset || outcome->offset == expected->offset);
}

bool outcome_is(const struct outcome *outcome, const struct expected *expected)
{
    switch (expected->kind) {
    case EXPECTED_REFUSED:
        return is_refused(outcome, expected);
    case EXPECTED_ACCEPTED:
        return is_accepted(outcome);
    case EXPECTED_STATUS:
        return outcome->kind == OUTCOME_ANSWERED && outcome->answer.status == expected->number &&
               outcome->answer.index == expected->index;
    case EXPECTED_OCTETS:
        return has_octets(outcome) && outcome->count == expected->octets.count &&
               memcmp(outcome->octets, expected->octets.at, outcome->count) == 0;
    case EXPECTED_INSTANCES:
        return outcome->kind == OUTCOME_WALKED && outcome->number == expected->number;
    case EXPECTED_VALUE:
        return outcome->kind == OUTCOME_CONVERTED && outcome->number == expected->number;
    default:
        return false;
    }
}

bool outcome_is_bindings(const struct outcome *outcome)
{
    return outcome->kind == OUTCOME_ANSWERED && !outcome->set && outcome->answer.bindings > 0;
}

void octets_print(FILE *out, const uint8_t *octets, size_t count)
{
    fputs("octets ", out);
    for (size_t i = 0; i < count; i++) {
        fprintf(out, "%02X", octets[i]);
    }
}

static void print_numbered(FILE *out, const char *word, uint32_t number, const char *name)
{
    fprintf(out, "%s %" PRIu32, word, number);
    if (name != NULL) {
        fprintf(out, " (%s)", name);
    }
}

/* With the octets around the offset as a comment, so that what is printed is still an expected answer. */
static void print_refused(FILE *out, const struct outcome *outcome)
{
    print_numbered(out, "refused", outcome->number, refusal_name(outcome->number));
    if (refusal_has_offset(outcome->number)) {
        fprintf(out, " at %" PRIu32, outcome->offset);
        if (outcome->offset <= outcome->count) {
            fputs("    # ", out);
            broken_print(out, outcome->octets, outcome->count, outcome->offset);
        }
    }
}

static void print_answered(FILE *out, const struct outcome *outcome)
{
    if (is_accepted(outcome)) {
        fputs("accepted", out);
        return;
    }
    print_numbered(out, "status", outcome->answer.status, status_name(outcome->answer.status));
    fprintf(out, " index %u", outcome->answer.index);
}

void outcome_print(FILE *out, const struct outcome *outcome)
{
    switch (outcome->kind) {
    case OUTCOME_REFUSED:
        print_refused(out, outcome);
        break;
    case OUTCOME_DONE:
        fputs("accepted", out);
        break;
    case OUTCOME_CONVERTED:
        fprintf(out, "value %" PRIu32, outcome->number);
        break;
    case OUTCOME_ANSWERED:
        print_answered(out, outcome);
        break;
    case OUTCOME_NO_RESPONSE:
        octets_print(out, outcome->octets, outcome->count);
        break;
    case OUTCOME_WALKED:
        fprintf(out, "instances %" PRIu32, outcome->number);
        break;
    }
}

void outcome_print_beside(FILE *out, const struct outcome *outcome, const struct expected *expected)
{
    if (expected->kind == EXPECTED_OCTETS && has_octets(outcome)) {
        octets_print(out, outcome->octets, outcome->count);
    } else if (expected_is_binding(expected) && (outcome_is_bindings(outcome) || outcome->kind == OUTCOME_WALKED)) {
        fputs("no more bindings", out);
    } else {
        outcome_print(out, outcome);
    }
}
