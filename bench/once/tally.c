/* Two events and one report on a run of as many cases as the first word says: bench/run counts their instructions. */
#include <stdio.h>
#include <stdlib.h>

#include "refbridge.h"

static rb_case cases[RB_CASES_MAX];

int main(int argc, char **argv)
{
    uint32_t count = argc == 2 ? (uint32_t)strtoul(argv[1], NULL, 10) : 0;
    uint8_t ended = 0;

    if (count == 0 || count > RB_CASES_MAX) {
        fprintf(stderr, "usage: tally CASES\n");
        return 2;
    }
    for (uint32_t i = 0; i < count; i++) {
        cases[i].id = 3 * i + 1;
    }
    rb_result started = rb_tally_event(cases, count, &ended, RB_START, cases[count / 2].id);
    rb_result passed = rb_tally_event(cases, count, &ended, RB_PASS, cases[count / 2].id);
    rb_report is = rb_tally_report(cases, count, ended);
    return started.number == 0 && passed.number == 0 && is.passed == 1 && is.not_run == count - 1 ? 0 : 1;
}
