/* A run's tally: four cases, fed with the events of a short night; the report after each event, and a refusal. */
#include <stdio.h>

#include "refbridge.h"

/* What the library is lent: ids ascending, none run, and a mark that is clear. */
static rb_case cases[] = {{101, RB_NOT_RUN}, {102, RB_NOT_RUN}, {205, RB_NOT_RUN}, {300, RB_NOT_RUN}};
static uint8_t ended;

enum { CASES = sizeof cases / sizeof cases[0] };

static const struct {
    const char *title;
    enum rb_event event;
    uint32_t id;
} night[] = {
    {"start 101", RB_START, 101}, {"pass 101", RB_PASS, 101}, {"start 102", RB_START, 102}, {"start 205", RB_START, 205},
    {"crash", RB_CRASH, 0},       {"start 205", RB_START, 205}, {"fail 102", RB_FAIL, 102}, {"fail 205", RB_FAIL, 205},
    {"end", RB_END, 0},           {"start 300", RB_START, 300},
};

int main(void)
{
    for (size_t i = 0; i < sizeof night / sizeof night[0]; i++) {
        rb_result fed = rb_tally_event(cases, CASES, &ended, night[i].event, night[i].id);
        rb_report is = rb_tally_report(cases, CASES, ended);

        printf("%-9s -> %2u: passed %u, failed %u, broken %u, not run %u\n", night[i].title, (unsigned)fed.number,
               (unsigned)is.passed, (unsigned)is.failed, (unsigned)is.broken, (unsigned)is.not_run);
    }
    return 0;
}
