/* Prints the fields of a message of the message form that a datagram in hex, a line of standard input each, is read as: version, community, id, status,
 * index, and for each binding its name and its content, separated by commas, in the words of tshark. */
#include <inttypes.h>
#include <stdio.h>
#include <stdlib.h>
#include <string.h>

#include "refbridge.h"

static uint8_t octets[RB_MESSAGE_MAX], room[RB_MESSAGE_MAX];

static uint32_t four(const uint8_t *at)
{
    return (uint32_t)at[0] << 24 | (uint32_t)at[1] << 16 | (uint32_t)at[2] << 8 | at[3];
}

static size_t size_of(const uint8_t *field)
{
    return (size_t)field[1] << 8 | field[2];
}

static void print_content(const uint8_t *field)
{
    switch (field[0]) {
    case RB_TAG_INTEGER:
        printf(",integer=%" PRId32, (int32_t)four(field + 3));
        break;
    case RB_TAG_UNSIGNED:
        printf(",gauge=%" PRIu32, four(field + 3));
        break;
    case RB_TAG_COUNTER:
        printf(",counter=%" PRIu32, four(field + 3));
        break;
    case RB_TAG_STRING:
        printf(",octets=");
        for (size_t i = 0; i < size_of(field); i++) {
            printf("%02x", field[3 + i]);
        }
        break;
    default:
        printf(",none=%02x", field[0]);
    }
}

static void print_binding(const uint8_t *name)
{
    for (size_t i = 0; i < size_of(name); i += 4) {
        printf(i == 0 ? ",%" PRIu32 : ".%" PRIu32, four(name + 3 + i));
    }
    print_content(name + 3 + size_of(name));
}

int main(void)
{
    static char text[2 * RB_MESSAGE_MAX + 1];

    while (scanf("%2944s", text) == 1) {
        size_t length = strlen(text) / 2;
        rb_datagram read;

        for (size_t i = 0; i < length; i++) {
            unsigned octet;
            sscanf(text + 2 * i, "%2x", &octet);
            octets[i] = (uint8_t)octet;
        }
        read = rb_from_captured(octets, length, room, sizeof room);
        if (read.number != 0) {
            fprintf(stderr, "fields: %u for %s\n", (unsigned)read.number, text);
            return 1;
        }
        printf("1,%.*s,%" PRId32 ",%u,%u", (int)read.community_len, (const char *)octets + read.community_at, (int32_t)four(room + 7), room[14],
               room[15]);
        for (size_t at = 16; at < read.count; at += 3 + size_of(room + at)) {
            print_binding(room + at + 3);
        }
        putchar('\n');
    }
    return 0;
}
