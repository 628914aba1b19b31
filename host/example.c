/* A first program: sets up a bridge with 4 ports, gets NumPorts, walks all instances, and sets StpPriority. */
#include <stdio.h>
#include <stdlib.h>
#include <string.h>

#include "refbridge.h"

/* What the library is lent: the bridge, a request, a room for the answer. */
static uint8_t block[RB_BLOCK_SIZE], request[RB_MESSAGE_MAX], room[RB_MESSAGE_MAX];

/* A name's sub-ids have four octets each. The bridge's names start with 1.3.6.1.2.1.17. */
#define BRIDGE 0, 0, 0, 1, 0, 0, 0, 3, 0, 0, 0, 6, 0, 0, 0, 1, 0, 0, 0, 2, 0, 0, 0, 1, 0, 0, 0, 17
static const uint8_t num_ports[] = {BRIDGE, 0, 0, 0, 1, 0, 0, 0, 2, 0, 0, 0, 0};    /* dot1dBaseNumPorts.0 */
static const uint8_t stp_priority[] = {BRIDGE, 0, 0, 0, 2, 0, 0, 0, 2, 0, 0, 0, 0}; /* dot1dStpPriority.0 */

/* Content fields: a tag, two octets of length, the content. */
static const uint8_t null[] = {RB_TAG_NULL, 0, 0};
static const uint8_t integer_4096[] = {RB_TAG_INTEGER, 0, 4, 0, 0, 0x10, 0};

#define NAME_AT 22 /* in a message with one binding: after 16 octets of head and the headers of binding and name */

/* Ends the program where a call did not return 0. */
static void check(const char *call, rb_result result)
{
    if (result.number != RB_ANSWERED) {
        fprintf(stderr, "%s: refused with number %u, offset %u\n", call, (unsigned)result.number,
                (unsigned)result.offset);
        exit(1);
    }
}

static void put_header(uint8_t *at, uint8_t tag, size_t length)
{
    at[0] = tag;
    at[1] = (uint8_t)(length >> 8);
    at[2] = (uint8_t)length;
}

/* Asks with one name and one content field. Returns where the answer's content field starts, in the room. */
static const uint8_t *ask(uint8_t kind, const uint8_t *name, size_t name_len, const uint8_t *content, size_t len)
{
    const uint8_t head[] = {RB_TAG_KIND, 0, 1, kind, RB_TAG_ID, 0, 4, 0, 0, 0, 1, RB_TAG_STATUS, 0, 2, 0, 0};

    memcpy(request, head, sizeof head);
    put_header(request + 16, RB_TAG_BINDING, 3 + name_len + len);
    put_header(request + 19, RB_TAG_NAME, name_len);
    memcpy(request + NAME_AT, name, name_len);
    memcpy(request + NAME_AT + name_len, content, len);
    check("rb_answer", rb_answer(block, sizeof block, request, NAME_AT + name_len + len, room, sizeof room));
    if (room[14] != RB_NO_ERROR) {
        fprintf(stderr, "fault %u at binding %u\n", room[14], room[15]);
        exit(1);
    }
    return room + NAME_AT + (room[20] << 8 | room[21]);
}

/* The number in a content field of four octets. */
static unsigned long number(const uint8_t *field)
{
    return (unsigned long)field[3] << 24 | (unsigned long)field[4] << 16 | (unsigned long)field[5] << 8 | field[6];
}

int main(void)
{
    static const uint8_t address[RB_ADDRESS_SIZE] = {0x00, 0x11, 0x22, 0x33, 0x44, 0x55};
    uint8_t name[512] = {0}; /* the walk starts at the smallest name, 0.0 */
    size_t name_len = 8;
    unsigned instances = 0;
    const uint8_t *content;

    check("rb_setup", rb_setup(block, sizeof block, 4, RB_EDITION_OLD, RB_DEVICE_TRANSPARENT, address, sizeof address));
    content = ask(RB_GET, num_ports, sizeof num_ports, null, sizeof null);
    printf("NumPorts is %lu\n", number(content));

    while ((content = ask(RB_GET_NEXT, name, name_len, null, sizeof null))[0] != RB_TAG_END_OF_MIB_VIEW) {
        instances++;
        name_len = (size_t)(content - (room + NAME_AT));
        memcpy(name, room + NAME_AT, name_len);
    }
    printf("a fresh bridge with 4 ports has %u instances\n", instances);

    ask(RB_SET, stp_priority, sizeof stp_priority, integer_4096, sizeof integer_4096);
    content = ask(RB_GET, stp_priority, sizeof stp_priority, null, sizeof null);
    printf("StpPriority is now %lu\n", number(content));
    return 0;
}
