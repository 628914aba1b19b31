/* A batch for a short window: four set messages in frames. The first three may be played in any order, and two orders show it; the fourth names a row that the
 * second names, so it may not be moved.
 *
 *     cc -std=c11 -Iinclude host/batch_example.c target/staticlib/librefbridge.a && ./a.out */
#include <stdio.h>
#include <stdlib.h>
#include <string.h>

#include "refbridge.h"

/* A frame is 7F, 00, 02, the message's length in two octets, and the message: 16 octets of head, here with one binding behind them. */
enum { MESSAGE_HEAD = 16, MESSAGES = 4, MESSAGE_MAX = 100 };

/* A name's sub-ids have four octets each. The bridge's names start with 1.3.6.1.2.1.17. */
#define BRIDGE 0, 0, 0, 1, 0, 0, 0, 3, 0, 0, 0, 6, 0, 0, 0, 1, 0, 0, 0, 2, 0, 0, 0, 1, 0, 0, 0, 17
#define VLAN BRIDGE, 0, 0, 0, 7, 0, 0, 0, 1, 0, 0, 0, 4, 0, 0, 0, 3, 0, 0, 0, 1

/* Bindings: a name field and a content field each. */
static const uint8_t stp_priority[] = {RB_TAG_NAME, 0, 40, BRIDGE, 0, 0, 0, 2, 0, 0, 0, 2, 0, 0, 0, 0, RB_TAG_INTEGER, 0, 4, 0, 0, 0x10, 0};
static const uint8_t make_vlan_10[] = {RB_TAG_NAME, 0, 56, VLAN, 0, 0, 0, 5, 0, 0, 0, 10, RB_TAG_INTEGER, 0, 4, 0, 0, 0, 4};
static const uint8_t aging_time[] = {RB_TAG_NAME, 0, 40, BRIDGE, 0, 0, 0, 4, 0, 0, 0, 2, 0, 0, 0, 0, RB_TAG_INTEGER, 0, 4, 0, 0, 0, 60};
static const uint8_t name_vlan_10[] = {RB_TAG_NAME, 0, 56, VLAN, 0, 0, 0, 1, 0, 0, 0, 10, RB_TAG_STRING, 0, 3, 't', 'e', 'n'};

/* What the library is lent: two copies of a bridge, the batch, a room. */
static uint8_t one[RB_BLOCK_SIZE], other[RB_BLOCK_SIZE], batch[MESSAGES * MESSAGE_MAX], room[RB_MESSAGE_MAX];
static size_t starts[MESSAGES], lengths[MESSAGES], batch_len; /* of the messages in the batch */

/* Adds a set message with one binding, in its frame. */
static void add(size_t at, const uint8_t *binding, size_t length)
{
    size_t message = MESSAGE_HEAD + 3 + length;
    const uint8_t head[] = {0x7F, 0, 2, (uint8_t)(message >> 8), (uint8_t)message, RB_TAG_KIND, 0, 1, RB_SET, RB_TAG_ID, 0, 4, 0, 0, 0, (uint8_t)(at + 1),
                            RB_TAG_STATUS, 0, 2, 0, 0, RB_TAG_BINDING, (uint8_t)(length >> 8), (uint8_t)length};

    starts[at] = batch_len + RB_FRAME_HEAD;
    lengths[at] = message;
    memcpy(batch + batch_len, head, sizeof head);
    memcpy(batch + batch_len + sizeof head, binding, length);
    batch_len += RB_FRAME_HEAD + message;
}

static void print_check(const char *what, size_t length)
{
    rb_batch is = rb_check_batch(one, sizeof one, batch, length);

    if (is.number != RB_ANSWERED) {
        printf("%s: refused with number %u, message %u, offset %u\n", what, (unsigned)is.number, (unsigned)is.message, (unsigned)is.offset);
    } else if (is.first != 0) {
        printf("%s: messages %u and %u name a common row or scalar\n", what, (unsigned)is.first, (unsigned)is.second);
    } else if (is.table != 0) {
        printf("%s: table %u has not room for all rows that are named\n", what, (unsigned)is.table);
    } else {
        printf("%s: any order will do\n", what);
    }
}

static void play(uint8_t *block, size_t at)
{
    if (rb_answer(block, RB_BLOCK_SIZE, batch + starts[at], lengths[at], room, sizeof room).number != RB_ANSWERED) {
        fprintf(stderr, "message %zu is not answered\n", at + 1);
        exit(1);
    }
}

int main(void)
{
    static const uint8_t address[RB_ADDRESS_SIZE] = {0x00, 0x11, 0x22, 0x33, 0x44, 0x55};

    if (rb_setup(one, sizeof one, 4, RB_EDITION_OLD, RB_DEVICE_TRANSPARENT, address, sizeof address).number != RB_ANSWERED) {
        return 1;
    }
    memcpy(other, one, sizeof other);
    add(0, stp_priority, sizeof stp_priority);
    add(1, make_vlan_10, sizeof make_vlan_10);
    add(2, aging_time, sizeof aging_time);
    print_check("three messages", batch_len);
    add(3, name_vlan_10, sizeof name_vlan_10);
    print_check("four messages", batch_len);
    print_check("four messages, the last one cut", batch_len - 1);
    for (size_t i = 0; i < 3; i++) {
        play(one, i);
        play(other, 2 - i);
    }
    printf("messages 1, 2, 3 and 3, 2, 1: the blocks are %s\n", memcmp(one, other, sizeof one) == 0 ? "equal" : "NOT equal");
    return 0;
}
