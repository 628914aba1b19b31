/* Reads datagrams from standard input, a line each: the number that rb_from_datagram must give, the number that rb_from_captured must give, a title
 * without spaces, the octets in hex. A response that is read is written again, and what is written is read as the same message. Prints how many
 * lines were right, and how many responses came back in the octets that they had; fails at the first that is not. */
#include <stdio.h>
#include <stdlib.h>
#include <string.h>

#include "refbridge.h"

static uint8_t *octets, room[2][RB_MESSAGE_MAX], again[RB_MESSAGE_MAX];
static unsigned lines, same;

static void need(int right, const char *title, const char *what, unsigned got)
{
    if (!right) {
        fprintf(stderr, "vectors: %s: %s (%u)\n", title, what, got);
        exit(1);
    }
}

/* The octets are in memory of exactly their size, so that a sanitizer sees what is read past them. */
static size_t from_hex(const char *text)
{
    size_t length = strlen(text) / 2;

    octets = malloc(length + (length == 0));
    for (size_t i = 0; i < length; i++) {
        unsigned octet;
        sscanf(text + 2 * i, "%2x", &octet);
        octets[i] = (uint8_t)octet;
    }
    return length;
}

static void write_again(const char *title, rb_datagram read, size_t length)
{
    uint8_t *message = room[1];
    rb_result wrote = rb_to_datagram(message, read.count, octets + read.community_at, read.community_len, again, sizeof again);
    rb_datagram back;

    need(wrote.number == 0, title, "is not written", wrote.number);
    back = rb_from_captured(again, wrote.count, room[0], sizeof room[0]);
    need(back.number == 0 && back.count == read.count && memcmp(room[0], message, back.count) == 0, title, "is read otherwise", back.number);
    need(wrote.count <= length, title, "is longer than it was", wrote.count);
    same += wrote.count == length && memcmp(again, octets, length) == 0;
}

int main(void)
{
    static char text[4096], title[256];
    unsigned request, captured;

    while (scanf("%u %u %255s %4095s", &request, &captured, title, text) == 4) {
        size_t length = from_hex(text);
        rb_datagram read = rb_from_datagram(octets, length, room[0], sizeof room[0]);

        need(read.number == request, title, "the reading of requests gives another number", read.number);
        read = rb_from_captured(octets, length, room[1], sizeof room[1]);
        need(read.number == captured, title, "the reading of responses gives another number", read.number);
        if (captured == 0 && room[1][3] == RB_RESPONSE) {
            write_again(title, read, length);
        }
        free(octets);
        lines++;
    }
    need(feof(stdin), title, "the line after this one is not understood", lines);
    printf("%u datagrams as expected, %u responses written again in the octets that they had\n", lines, same);
    return 0;
}
