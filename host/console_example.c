/* The serial console: a child writes framed messages into a pipe in random pieces; the parent reads it in other random pieces, takes what it reads and
 * prints what it hears.
 *
 *   console_example [SEED]       prints the same lines for every seed */
#define _DEFAULT_SOURCE
#include <stdio.h>
#include <stdlib.h>
#include <string.h>
#include <sys/wait.h>
#include <unistd.h>

#include "refbridge.h"

enum { HEADER = 5, STREAM_MAX = 8192, PIECE_MAX = 600 };

static uint8_t stream[STREAM_MAX], state[RB_CONSOLE_SIZE], room[RB_MESSAGE_MAX], chunk[PIECE_MAX];
static size_t stream_len;
static uint32_t seed = 1;

static void fail(const char *what)
{
    perror(what);
    exit(1);
}

/* The length of a piece: 1 to most octets. */
static size_t piece(size_t most)
{
    seed = seed * 1664525u + 1013904223u;
    return (seed >> 8) % most + 1;
}

/* Adds a message in its frame: 7F, 00, 02, its length in two octets, and itself. */
static void add_frame(const uint8_t *message, size_t length)
{
    const uint8_t header[HEADER] = {0x7F, 0, 2, (uint8_t)(length >> 8), (uint8_t)length};

    memcpy(stream + stream_len, header, HEADER);
    memcpy(stream + stream_len + HEADER, message, length);
    stream_len += HEADER + length;
}

/* Messages of several lengths, and between them what no frame begins with. */
static void make_stream(void)
{
    static const uint8_t get[] = {RB_TAG_KIND, 0, 1, RB_GET, RB_TAG_ID, 0, 4, 0, 0, 0, 1, RB_TAG_STATUS, 0, 2, 0, 0};
    static const uint8_t too_long[HEADER] = {0x7F, 0, 2, 0x05, 0xC1}; /* 1,473 */
    static uint8_t longest[RB_MESSAGE_MAX];

    memset(longest, 0xAB, sizeof longest);
    add_frame(get, sizeof get);
    add_frame(get, 0);
    add_frame(longest, sizeof longest);
    stream[stream_len++] = 0x7E;
    add_frame(get, sizeof get);
    memcpy(stream + stream_len, too_long, sizeof too_long);
    stream_len += sizeof too_long;
    add_frame(longest, 3);
}

/* The child's part. */
static void write_stream(int to)
{
    size_t at = 0;

    while (at < stream_len) {
        size_t left = stream_len - at, length = piece(PIECE_MAX);
        ssize_t written = write(to, stream + at, length < left ? length : left);

        if (written < 0)
            fail("write");
        at += (size_t)written;
    }
}

static void print_message(size_t length)
{
    size_t shown = length < 16 ? length : 16;

    printf("message of %zu octets:", length);
    for (size_t i = 0; i < shown; i++)
        printf(" %02X", room[i]);
    printf(shown < length ? " ..\n" : "\n");
}

/* Offers a chunk until all of it is taken. After a refusal the stream begins anew behind the wrong octet. */
static void hear(const uint8_t *octets, size_t length)
{
    do {
        rb_console call = rb_console_take(state, sizeof state, octets, length, room, sizeof room);

        if (call.complete)
            print_message(call.count);
        if (call.number != RB_ANSWERED) {
            printf("refused with number %u\n", (unsigned)call.number);
            if (rb_console_reset(state, sizeof state).number != RB_ANSWERED)
                exit(1);
        }
        octets += call.taken;
        length -= call.taken;
    } while (length > 0);
}

/* The parent's part. */
static void read_stream(int from)
{
    ssize_t length;

    hear(chunk, 0);
    while ((length = read(from, chunk, piece(PIECE_MAX))) > 0)
        hear(chunk, (size_t)length);
    if (length < 0)
        fail("read");
}

int main(int argc, char **argv)
{
    int ends[2], status;
    pid_t child;

    if (argc > 1)
        seed = (uint32_t)strtoul(argv[1], NULL, 10);
    make_stream();
    if (pipe(ends) != 0)
        fail("pipe");
    child = fork();
    if (child < 0)
        fail("fork");
    if (child == 0) {
        close(ends[0]);
        seed = ~seed; /* other pieces than the parent's */
        write_stream(ends[1]);
        return 0;
    }
    close(ends[1]);
    read_stream(ends[0]);
    if (waitpid(child, &status, 0) != child || status != 0)
        fail("the writing child");
    return 0;
}
