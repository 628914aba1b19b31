#include "codes.h"

#include "refbridge.h"

static const char *const refusals[] = {
    [RB_ROOM_SHORT] = "answer room short",
    [RB_REQUEST_LONG] = "request too long",
    [RB_BLOCK_NOT_LEGAL] = "block not legal",
    [RB_FIELD_CUT] = "field cut",
    [RB_TAG_NOT_ALLOWED] = "tag not allowed",
    [RB_LENGTH_WRONG] = "length wrong",
    [RB_HEAD_WRONG] = "kind, status or index wrong",
    [RB_TOO_MANY_BINDINGS] = "17th binding",
    [RB_SETUP_REFUSED] = "set-up refused",
    [RB_TIMER_RANGE] = "timer out of range",
    [RB_EVENT_UNKNOWN] = "event or case unknown",
    [RB_START_REFUSED] = "start refused",
    [RB_VERDICT_REFUSED] = "verdict refused",
    [RB_RUN_ENDED] = "run has ended",
    [RB_RUN_NOT_LEGAL] = "run not legal",
    [RB_BER_BROKEN] = "BER broken",
    [RB_VERSION_WRONG] = "version not SNMPv2c",
    [RB_PDU_NOT_TAKEN] = "kind of PDU not taken",
    [RB_NO_COUNTERPART] = "no counterpart",
    [RB_DATAGRAM_LONG] = "datagram too long",
    [RB_CONSOLE_WRONG] = "frame wrong",
    [RB_CONSOLE_LONG] = "frame too long",
    [RB_BATCH_LONG] = "over 64 messages",
    [RB_NOT_ASCENDING] = "walk not strictly ascending",
    [RB_LIST_SHORT] = "list longer than its room",
};

static const struct {
    uint8_t status;
    const char *name;
} statuses[] = {
    {RB_NO_ERROR, "noError"},
    {RB_TOO_BIG, "tooBig"},
    {RB_GEN_ERR, "genErr"},
    {RB_WRONG_TYPE, "wrongType"},
    {RB_WRONG_LENGTH, "wrongLength"},
    {RB_WRONG_VALUE, "wrongValue"},
    {RB_NO_CREATION, "noCreation"},
    {RB_INCONSISTENT_VALUE, "inconsistentValue"},
    {RB_RESOURCE_UNAVAILABLE, "resourceUnavailable"},
    {RB_NOT_WRITABLE, "notWritable"},
    {RB_INCONSISTENT_NAME, "inconsistentName"},
};

#define STATUSES (sizeof statuses / sizeof statuses[0])

const char *refusal_name(uint32_t number)
{
    return number < sizeof refusals / sizeof refusals[0] ? refusals[number] : NULL;
}

bool refusal_has_offset(uint32_t number)
{
    return number >= RB_FIELD_CUT && number <= RB_TOO_MANY_BINDINGS;
}

const char *status_name(uint32_t status)
{
    for (size_t i = 0; i < STATUSES; i++) {
        if (statuses[i].status == status) {
            return statuses[i].name;
        }
    }
    return NULL;
}

bool status_read(struct text word, uint32_t *status)
{
    uint64_t number;

    for (size_t i = 0; i < STATUSES; i++) {
        if (text_is(word, statuses[i].name)) {
            *status = statuses[i].status;
            return true;
        }
    }
    if (!text_number(word, UINT8_MAX, &number)) {
        return false;
    }
    *status = (uint32_t)number;
    return true;
}
