/* Runs between guard pages: the list stands once at the front page and once at the back page, the mark likewise, so that one octet read or written outside
 * them ends the program. A refusal writes nothing, an accepted event changes the state of one case at most and no id. */
#define _DEFAULT_SOURCE
#include <stdbool.h>
#include <unistd.h>

#include "random.h"
#include "space.h"

enum { PLAYS = 4000, EVENTS = 40, LONGEST = RB_CASES_MAX + 1, NUMBERS = 16 };

static rb_case before[LONGEST];
static unsigned events, reports, numbers[NUMBERS];

/* Ascending ids, a new run, or a damaged one. */
static void fill(rb_case *cases, size_t count, uint8_t *ended)
{
    bool damaged = chance(3) == 0;

    *ended = 0;
    for (size_t i = 0; i < count; i++) {
        cases[i] = (rb_case){(uint32_t)i * 2, RB_NOT_RUN};
        if (damaged && chance(4) == 0) {
            cases[i] = (rb_case){(uint32_t)i * 2 + chance(3), chance(6)};
        }
    }
    if (damaged) {
        *ended = (uint8_t)chance(3);
    }
}

static size_t states_changed(const rb_case *cases, size_t count)
{
    size_t changed = 0;

    for (size_t i = 0; i < count; i++) {
        REQUIRE(cases[i].id == before[i].id, "an id changed");
        changed += cases[i].state != before[i].state;
    }
    return changed;
}

/* Mostly start, pass, fail and crash, so that a run does not end soon. */
static uint32_t any_event(void)
{
    uint32_t drawn = chance(60);

    return drawn == 0 ? RB_END : drawn == 1 ? RB_END + 1 : drawn % RB_END;
}

static void feed(rb_case *cases, size_t count, uint8_t *ended)
{
    uint32_t event = any_event(), id = chance((uint32_t)count * 2 + 2);
    uint8_t mark = *ended;

    memcpy(before, cases, count * sizeof *cases);
    rb_result fed = rb_tally_event(cases, count, ended, event, id);
    REQUIRE(fed.number == 0 || (fed.number >= RB_EVENT_UNKNOWN && fed.number <= RB_RUN_NOT_LEGAL), "number %u", (unsigned)fed.number);
    REQUIRE(fed.count == 0 && fed.offset == 0, "a result that is not 0");
    REQUIRE(states_changed(cases, count) <= (fed.number == 0), "too many states changed");
    REQUIRE(*ended == (fed.number == 0 && event == RB_END ? 1 : mark), "the mark");
    numbers[fed.number]++;
    events++;
}

static void count_classes(const rb_case *cases, size_t count, uint8_t ended)
{
    memcpy(before, cases, count * sizeof *cases);
    rb_report is = rb_tally_report(cases, count, ended);
    REQUIRE(states_changed(cases, count) == 0, "a report wrote");
    REQUIRE(is.passed + is.failed + is.broken + is.not_run == (is.number == 0 ? count : 0), "the four do not add up");
    reports++;
}

static void play(uint8_t *list, uint8_t *mark, size_t size, size_t page)
{
    size_t count = chance(200) == 0 ? LONGEST - chance(3) : chance(12);
    bool at_back = chance(2) == 0;
    rb_case *cases = (rb_case *)(at_back ? list + size - count * sizeof *cases : list);
    uint8_t *ended = at_back ? mark + page - 1 : mark;

    fill(cases, count, ended);
    for (unsigned i = 0; i < EVENTS; i++) {
        feed(cases, count, ended);
        if (chance(4) == 0) {
            count_classes(cases, count, *ended);
        }
    }
}

int main(int argc, char **argv)
{
    size_t page = (size_t)sysconf(_SC_PAGESIZE), size = LONGEST * sizeof(rb_case);
    uint8_t *list = make_space(size), *mark = make_space(page);

    chance_seed(argc == 2 ? strtoull(argv[1], NULL, 10) : 1);
    for (unsigned i = 0; i < PLAYS; i++) {
        play(list, mark, size, page);
    }
    printf("runs between guard pages: %u events, %u reports; by number:", events, reports);
    for (unsigned n = 0; n < NUMBERS; n++) {
        REQUIRE(numbers[n] > 0 || (n > 0 && n < RB_EVENT_UNKNOWN), "number %u never came", n);
        if (numbers[n] > 0) {
            printf(" %u: %u", n, numbers[n]);
        }
    }
    printf("\n");
    return 0;
}
