#include "datagram.h"

#include <string.h>

#include "message.h"

/* PDU tags of RFC 3416, and tags of BER. */
enum { PDU_GET = 0xA0, PDU_GET_NEXT = 0xA1, PDU_RESPONSE = 0xA2, PDU_SET = 0xA3 };
enum { BER_NUMBER = 0x02, BER_STRING = 0x04, BER_SEQUENCE = 0x30 };

static uint8_t pdu_tag(uint8_t kind)
{
    return kind == RB_SET ? PDU_SET : kind == RB_GET_NEXT ? PDU_GET_NEXT : PDU_GET;
}

/* The size of a BER header: a tag, and a length of one octet or of as many more as its first says. */
static size_t header_size(const uint8_t *at)
{
    return (at[1] & 0x80u) == 0 ? 2 : 2 + (at[1] & 0x7Fu);
}

/* Where the PDU's tag stands: after the version, which has three octets, and the community. */
static size_t pdu_at(const uint8_t *datagram, size_t community)
{
    size_t at = header_size(datagram) + 3;

    return at + header_size(datagram + at) + community;
}

uint32_t request_datagram(const struct octets *request, uint32_t id, const char *community, uint8_t *out, size_t *count)
{
    static uint8_t message[OCTETS_MAX];
    size_t length = strlen(community);
    rb_result result;

    memcpy(message, request->at, request->count);
    message[KIND_AT] = RB_RESPONSE; /* a response has the same form; only its tag differs */
    for (size_t i = 0; i < ID_SIZE; i++) {
        message[ID_AT + i] = (uint8_t)(id >> 8 * (ID_SIZE - 1 - i));
    }
    result = rb_to_datagram(message, request->count, (const uint8_t *)community, length, out, RB_MESSAGE_MAX);
    if (result.number == RB_ANSWERED) {
        out[pdu_at(out, length)] = pdu_tag(request_kind(request));
    }
    *count = result.count;
    return result.number;
}

/* A datagram that is read from the left. */
struct front {
    const uint8_t *octets;
    size_t count, at;
};

/* Takes a header of this tag; `length` is what it says, which may be more than there is. */
static bool take_header(struct front *front, uint8_t tag, size_t *length)
{
    const uint8_t *header = front->octets + front->at;
    size_t size;

    if (front->count - front->at < 2 || header[0] != tag) {
        return false;
    }
    size = header_size(header);
    if (front->count - front->at < size || size > 2 + sizeof(uint32_t)) {
        return false;
    }
    *length = size == 2 ? header[1] & 0x7Fu : 0;
    for (size_t i = 2; i < size; i++) {
        *length = *length << 8 | header[i];
    }
    front->at += size;
    return true;
}

/* Takes a field of this tag that is whole. */
static bool take_field(struct front *front, uint8_t tag, const uint8_t **contents, size_t *length)
{
    if (!take_header(front, tag, length) || front->count - front->at < *length) {
        return false;
    }
    *contents = front->octets + front->at;
    front->at += *length;
    return true;
}

/* The last four octets of a number, which are those of an id. */
static uint32_t id_of(const uint8_t *contents, size_t length)
{
    uint32_t id = 0;

    for (size_t i = 0; i < length; i++) {
        id = id << 8 | contents[i];
    }
    return id;
}

bool datagram_answers(const uint8_t *datagram, size_t count, uint32_t id, const char *community)
{
    struct front front = {datagram, count, 0};
    const uint8_t *contents;
    size_t length;

    if (!take_header(&front, BER_SEQUENCE, &length) || !take_field(&front, BER_NUMBER, &contents, &length) ||
        length != 1 || contents[0] != 1) {
        return false;
    }
    if (!take_field(&front, BER_STRING, &contents, &length) || length != strlen(community) ||
        memcmp(contents, community, length) != 0) {
        return false;
    }
    return take_header(&front, PDU_RESPONSE, &length) && take_field(&front, BER_NUMBER, &contents, &length) &&
           id_of(contents, length) == id;
}
