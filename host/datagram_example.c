/* A program for datagrams: reads an SNMPv2c get of NumPorts as it came from a wire, answers it on a bridge with 4 ports, writes the answer as a datagram,
 * and reads that back as a captured answer. A socket has only to hand over and take these octets.
 *
 *     cc -std=c11 -Iinclude host/datagram_example.c target/staticlib/librefbridge.a && ./a.out */
#include <stdio.h>
#include <stdlib.h>
#include <string.h>

#include "refbridge.h"

/* What the library is lent: the bridge, a message, its answer, and a datagram to send. */
static uint8_t block[RB_BLOCK_SIZE], message[RB_MESSAGE_MAX], answer[RB_MESSAGE_MAX], reply[RB_MESSAGE_MAX];

/* SEQUENCE { version 1, community "public", get { id 7, 0, 0, { 1.3.6.1.2.1.17.1.2.0 = NULL } } } */
static const uint8_t request[] = {0x30, 0x27, 0x02, 1, 1, 0x04, 6, 'p', 'u', 'b', 'l', 'i', 'c', 0xA0, 0x1A, 0x02, 1, 7, 0x02, 1, 0,
                                  0x02, 1, 0, 0x30, 0x0F, 0x30, 0x0D, 0x06, 9, 0x2B, 6, 1, 2, 1, 17, 1, 2, 0, 0x05, 0};

/* Ends the program where a call did not return 0. */
static void check(const char *call, uint32_t number)
{
    if (number != RB_ANSWERED) {
        fprintf(stderr, "%s: refused with number %u\n", call, (unsigned)number);
        exit(1);
    }
}

static void print(const char *title, const uint8_t *octets, size_t length)
{
    printf("%s, %zu octets:", title, length);
    for (size_t i = 0; i < length; i++) {
        printf(" %02x", octets[i]);
    }
    putchar('\n');
}

int main(void)
{
    static const uint8_t address[RB_ADDRESS_SIZE] = {0x00, 0x11, 0x22, 0x33, 0x44, 0x55};
    rb_datagram read;
    rb_result answered, written;

    check("rb_setup", rb_setup(block, sizeof block, 4, RB_EDITION_OLD, RB_DEVICE_TRANSPARENT, address, sizeof address).number);

    read = rb_from_datagram(request, sizeof request, message, sizeof message);
    check("rb_from_datagram", read.number);
    print("the request as a message", message, read.count);

    answered = rb_answer(block, sizeof block, message, read.count, answer, sizeof answer);
    check("rb_answer", answered.number);

    /* The community goes back as it came: it still stands in the datagram. */
    written = rb_to_datagram(answer, answered.count, request + read.community_at, read.community_len, reply, sizeof reply);
    check("rb_to_datagram", written.number);
    print("the answer as a datagram", reply, written.count);

    read = rb_from_captured(reply, written.count, message, sizeof message);
    check("rb_from_captured", read.number);
    printf("read back: %s\n", read.count == answered.count && memcmp(message, answer, read.count) == 0 ? "the same message" : "another message");
    return 0;
}
