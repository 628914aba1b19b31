#define _DEFAULT_SOURCE
#include "tally.h"

#include <stdbool.h>

#include "figures.h"
#include "requests.h"

enum { SUBMISSION = 41000, CALLS = 20 };

static rb_case cases[RB_CASES_MAX];
static uint8_t ended;

/* A run in the middle of its night: the first half has verdicts, the rest is not run. */
static void make_run(uint32_t count)
{
    ended = 0;
    for (uint32_t i = 0; i < count; i++) {
        cases[i].id = 3 * i + 1;
        cases[i].state = i < count / 2 ? RB_PASSED + i % 3 : RB_NOT_RUN;
    }
}

/* What must be looked at for an event, in plain C: order, states, the running case, and the case with an id. */
static bool plain_pass(uint32_t count, uint32_t id, uint32_t *found, uint32_t *running)
{
    bool good = ended <= 1;
    uint32_t runs = 0;

    for (uint32_t i = 0; i < count; i++) {
        good &= cases[i].state <= RB_BROKEN && (i == 0 || cases[i - 1].id < cases[i].id);
        if (cases[i].state == RB_RUNNING) {
            runs++;
            *running = i;
        }
        if (cases[i].id == id) {
            *found = i;
        }
    }
    return good && runs <= 1;
}

static double time_plain(uint32_t count)
{
    volatile bool good = true;
    uint32_t found = 0, running = 0;
    uint64_t start = now(CLOCK_THREAD_CPUTIME_ID);

    for (uint32_t i = 0; i < CALLS; i++) {
        good &= plain_pass(count, cases[count - 1 - i].id, &found, &running);
    }
    REQUIRE(good && found == count - CALLS, "the plain pass");
    return (double)(now(CLOCK_THREAD_CPUTIME_ID) - start) / CALLS;
}

/* Starts and passes cases, one after the other. */
static double time_events(uint32_t count)
{
    uint32_t refused = 0;
    uint64_t start = now(CLOCK_THREAD_CPUTIME_ID);

    for (uint32_t i = 0; i < CALLS; i++) {
        uint32_t id = cases[count - 1 - i / 2].id;
        refused |= rb_tally_event(cases, count, &ended, i % 2 == 0 ? RB_START : RB_PASS, id).number;
    }
    REQUIRE(refused == 0, "an event was refused with %u", (unsigned)refused);
    return (double)(now(CLOCK_THREAD_CPUTIME_ID) - start) / CALLS;
}

static double time_reports(uint32_t count)
{
    uint32_t sum = 0;
    uint64_t start = now(CLOCK_THREAD_CPUTIME_ID);

    for (uint32_t i = 0; i < CALLS; i++) {
        rb_report is = rb_tally_report(cases, count, ended);
        sum += is.passed + is.failed + is.broken + is.not_run;
    }
    REQUIRE(sum == CALLS * count, "the four do not add up");
    return (double)(now(CLOCK_THREAD_CPUTIME_ID) - start) / CALLS;
}

static void print_one(const char *what, uint32_t count, const double *rounds, const double *plain)
{
    double nanoseconds = median(rounds, ROUNDS);

    printf("  %-6s %6u cases %12.0f %8.2f %12.0f %9.2f\n", what, (unsigned)count, nanoseconds, nanoseconds / count,
           1e9 / nanoseconds, nanoseconds / median(plain, ROUNDS));
}

void print_tallies(void)
{
    static const uint32_t counts[] = {SUBMISSION, RB_CASES_MAX};

    printf("\nrun tally: nanoseconds per call, median of %d rounds, beside one pass in C\n\n", ROUNDS);
    printf("  %-19s %12s %8s %12s %9s\n", "", "per call", "a case", "a second", ": pass");
    for (size_t c = 0; c < sizeof counts / sizeof counts[0]; c++) {
        double events[ROUNDS], reports[ROUNDS], plain[ROUNDS];

        for (size_t round = 0; round < ROUNDS; round++) {
            make_run(counts[c]);
            plain[round] = time_plain(counts[c]);
            events[round] = time_events(counts[c]);
            reports[round] = time_reports(counts[c]);
        }
        print_one("event", counts[c], events, plain);
        print_one("report", counts[c], reports, plain);
    }
}
