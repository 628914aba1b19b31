#include "message.h"

#include <string.h>

#include "refbridge.h"

#define HEADER_SIZE 3u /* a tag octet and a length of two octets */

static const uint8_t head[HEAD_SIZE] = {RB_TAG_KIND, 0, 1, 0, RB_TAG_ID, 0, 4, 0, 0, 0, 0, RB_TAG_STATUS, 0, 2, 0, 0};

static void put_number(uint8_t *at, size_t width, uint32_t number)
{
    for (size_t i = 0; i < width; i++) {
        at[i] = (uint8_t)(number >> 8 * (width - 1 - i));
    }
}

static uint32_t get_number(const uint8_t *at, size_t width)
{
    uint32_t number = 0;

    for (size_t i = 0; i < width; i++) {
        number = number << 8 | at[i];
    }
    return number;
}

void request_start(struct octets *request, uint8_t kind, uint32_t id)
{
    memcpy(request->at, head, HEAD_SIZE);
    request->at[KIND_AT] = kind;
    put_number(request->at + ID_AT, ID_SIZE, id);
    request->count = HEAD_SIZE;
}

static void put_header(struct octets *octets, uint8_t tag, size_t length)
{
    octets->at[octets->count] = tag;
    put_number(octets->at + octets->count + 1, 2, (uint32_t)length);
    octets->count += HEADER_SIZE;
}

bool request_add(struct octets *request, const struct name *name, const struct value *value)
{
    size_t content = value == NULL ? 0 : value->count;
    size_t inside = HEADER_SIZE + 4 * name->count + HEADER_SIZE + content;

    if (OCTETS_MAX - request->count < HEADER_SIZE + inside) {
        return false;
    }
    put_header(request, RB_TAG_BINDING, inside);
    put_header(request, RB_TAG_NAME, 4 * name->count);
    for (size_t i = 0; i < name->count; i++) {
        put_number(request->at + request->count, 4, name->sub[i]);
        request->count += 4;
    }
    put_header(request, value == NULL ? RB_TAG_NULL : value->tag, content);
    if (value != NULL) {
        memcpy(request->at + request->count, value->octets, content);
        request->count += content;
    }
    return true;
}

uint8_t request_kind(const struct octets *request)
{
    return request->at[KIND_AT];
}

/* Takes a field with this tag (0: any) that ends before `end`; its contents are at `start` and have `length` octets. */
static bool take_field(struct answer *answer, uint8_t tag, size_t end, size_t *start, size_t *length)
{
    if (end - answer->place < HEADER_SIZE) {
        return false;
    }
    *start = answer->place + HEADER_SIZE;
    *length = get_number(answer->octets + answer->place + 1, 2);
    if (end - *start < *length || (tag != 0 && answer->octets[answer->place] != tag)) {
        return false;
    }
    answer->place = *start + *length;
    return true;
}

static bool take_name(struct answer *answer, size_t end, struct name *name)
{
    size_t start, length;

    if (!take_field(answer, RB_TAG_NAME, end, &start, &length) || length % 4 != 0 || length < 4 * NAME_SUBS_MIN ||
        length > 4 * NAME_SUBS_MAX) {
        return false;
    }
    name->count = length / 4;
    for (size_t i = 0; i < name->count; i++) {
        name->sub[i] = get_number(answer->octets + start + 4 * i, 4);
    }
    return true;
}

/* True for a content that a message of this kind may hold, with a length that goes with its tag. */
static bool is_content(uint8_t kind, uint8_t tag, size_t length)
{
    switch (tag) {
    case RB_TAG_INTEGER:
    case RB_TAG_UNSIGNED:
    case RB_TAG_COUNTER:
        return length == 4;
    case RB_TAG_STRING:
        return length <= STRING_MAX;
    case RB_TAG_NULL:
        return length == 0 && kind != RB_RESPONSE;
    case RB_TAG_NO_SUCH_OBJECT:
    case RB_TAG_NO_SUCH_INSTANCE:
    case RB_TAG_END_OF_MIB_VIEW:
        return length == 0 && kind == RB_RESPONSE;
    default:
        return false;
    }
}

static bool take_content(struct answer *answer, size_t end, struct value *value)
{
    size_t tag_at = answer->place, start;

    value->ports = false;
    if (!take_field(answer, 0, end, &start, &value->count) ||
        !is_content(answer->kind, answer->octets[tag_at], value->count)) {
        return false;
    }
    value->tag = answer->octets[tag_at];
    memcpy(value->octets, answer->octets + start, value->count);
    return true;
}

bool answer_binding(struct answer *answer, struct binding *binding)
{
    size_t start, length, end;

    if (!take_field(answer, RB_TAG_BINDING, answer->count, &start, &length)) {
        return false;
    }
    end = answer->place;
    answer->place = start;
    return take_name(answer, end, &binding->name) && take_content(answer, end, &binding->value) && answer->place == end;
}

/* True where the octets start as every message does, whatever the four parts are that vary. */
static bool is_head(const struct answer *message)
{
    uint8_t form[HEAD_SIZE];

    memcpy(form, head, HEAD_SIZE);
    form[KIND_AT] = message->kind;
    put_number(form + ID_AT, ID_SIZE, message->id);
    form[STATUS_AT] = message->status;
    form[INDEX_AT] = message->index;
    return memcmp(form, message->octets, HEAD_SIZE) == 0;
}

bool message_read(struct answer *message, const uint8_t *octets, size_t count)
{
    struct binding binding;

    if (count < HEAD_SIZE) {
        return false;
    }
    *message = (struct answer){.octets = octets,
                               .count = count,
                               .place = HEAD_SIZE,
                               .id = get_number(octets + ID_AT, ID_SIZE),
                               .kind = octets[KIND_AT],
                               .status = octets[STATUS_AT],
                               .index = octets[INDEX_AT]};
    if (!is_head(message)) {
        return false;
    }
    while (message->place < count) {
        if (!answer_binding(message, &binding)) {
            return false;
        }
        message->bindings++;
    }
    message->place = HEAD_SIZE;
    return true;
}

bool answer_read(struct answer *answer, const uint8_t *octets, size_t count)
{
    return message_read(answer, octets, count) && answer->kind == RB_RESPONSE;
}

/* How many bindings a request has that was answered. */
static size_t request_bindings(const struct octets *request)
{
    size_t count = 0;

    for (size_t at = HEAD_SIZE; at + HEADER_SIZE <= request->count;) {
        at += HEADER_SIZE + get_number(request->at + at + 1, 2);
        count++;
    }
    return count;
}

const char *answer_flaw(const struct answer *answer, const struct octets *request)
{
    size_t bindings = request_bindings(request);

    if (memcmp(answer->octets + ID_AT, request->at + ID_AT, ID_SIZE) != 0) {
        return "the answer has another request id";
    }
    if (answer->index > bindings || (answer->index == 0) != (answer->status <= RB_TOO_BIG)) {
        return "the index does not go with the status or the number of bindings";
    }
    if (request_kind(request) == RB_SET) {
        if (answer->count != request->count ||
            memcmp(answer->octets + HEAD_SIZE, request->at + HEAD_SIZE, answer->count - HEAD_SIZE) != 0) {
            return "a set's bindings are not echoed";
        }
    } else if (answer->bindings != (answer->status == RB_TOO_BIG ? 0 : bindings)) {
        return "the answer has not as many bindings as the request";
    }
    return NULL;
}
