/* Measures the serial console: a frame of 1,472 octets in one call, and an octet a call, beside memcpy and memcmp of as many octets.
 *
 * bench/run builds and starts this program; docs/PERFORMANCE.md tells how to read what it prints. */
#define _DEFAULT_SOURCE
#include <stdio.h>
#include <stdlib.h>
#include <string.h>
#include <time.h>

#include "refbridge.h"

enum { HEADER = 5, FRAME = HEADER + RB_MESSAGE_MAX, ROUNDS = 21, FRAMES = 2000, SINGLES = 4 };

static uint8_t frame[FRAME], state[RB_CONSOLE_SIZE], room[RB_MESSAGE_MAX];

/* Pointers that the compiler cannot see through. */
static void *(*volatile copy)(void *, const void *, size_t) = memcpy;
static int (*volatile compare)(const void *, const void *, size_t) = memcmp;

static void require(int holds, const char *what)
{
    if (!holds) {
        fprintf(stderr, "%s\n", what);
        exit(1);
    }
}

static double now(void)
{
    struct timespec time;

    clock_gettime(CLOCK_THREAD_CPUTIME_ID, &time);
    return (double)time.tv_sec * 1e9 + (double)time.tv_nsec;
}

/* Each gives the nanoseconds of one call. */
static double whole_frames(void)
{
    double start = now();

    for (unsigned i = 0; i < FRAMES; i++) {
        rb_console call = rb_console_take(state, sizeof state, frame, sizeof frame, room, sizeof room);
        require(call.complete == 1 && call.count == RB_MESSAGE_MAX, "a frame is not heard");
    }
    return (now() - start) / FRAMES;
}

static double single_octets(void)
{
    unsigned complete = 0;
    double start = now();

    for (unsigned i = 0; i < SINGLES * FRAME; i++) {
        complete += rb_console_take(state, sizeof state, frame + i % FRAME, 1, room, sizeof room).complete;
    }
    require(complete == SINGLES, "an octet a call: not every frame is heard");
    return (now() - start) / (SINGLES * FRAME);
}

static double copies(void)
{
    double start = now();

    for (unsigned i = 0; i < FRAMES; i++)
        copy(room, frame + HEADER, RB_MESSAGE_MAX);
    return (now() - start) / FRAMES;
}

static double compares(void)
{
    static const uint8_t zeros[RB_CONSOLE_SIZE];
    int differs = 0;
    double start = now();

    for (unsigned i = 0; i < FRAMES; i++)
        differs |= compare(state, zeros, sizeof state);
    require(differs == 0, "the state is not fresh");
    return (now() - start) / FRAMES;
}

static int ascending(const void *a, const void *b)
{
    double x = *(const double *)a, y = *(const double *)b;

    return (x > y) - (x < y);
}

int main(void)
{
    static const struct {
        const char *title;
        double (*measure)(void);
    } lines[] = {
        {"a frame of 1,472 octets in one call", whole_frames},
        {"the same frame, an octet a call", single_octets},
        {"memcpy of 1,472 octets", copies},
        {"memcmp of 1,477 octets", compares},
    };
    enum { LINES = sizeof lines / sizeof lines[0], MEMCMP = LINES - 1 };
    static double rounds[LINES][ROUNDS];
    static const uint8_t header[HEADER] = {0x7F, 0, 2, RB_MESSAGE_MAX >> 8, RB_MESSAGE_MAX & 0xFF};

    memset(frame, 0xAB, sizeof frame);
    memcpy(frame, header, HEADER);
    for (size_t round = 0; round < ROUNDS; round++)
        for (size_t i = 0; i < LINES; i++)
            rounds[i][round] = lines[i].measure();
    for (size_t i = 0; i < LINES; i++)
        qsort(rounds[i], ROUNDS, sizeof rounds[i][0], ascending);
    printf("serial console: nanoseconds per call, and as memcmps of a state\n");
    for (size_t i = 0; i < LINES; i++)
        printf("  %-40s %8.1f %8.2f\n", lines[i].title, rounds[i][ROUNDS / 2], rounds[i][ROUNDS / 2] / rounds[MEMCMP][ROUNDS / 2]);
    return 0;
}
