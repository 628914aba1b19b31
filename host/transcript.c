#include "transcript.h"

#include <stdio.h>

#define DIFFERENCES_SHOWN 10 /* of one command */

static FILE *differences_to(const struct turn *turn)
{
    return turn->player->mode == PLAY_FILL ? stderr : stdout;
}

static void show_command(struct turn *turn, FILE *out)
{
    if (!turn->shown) {
        turn->shown = true;
        progress_clear(&turn->player->progress);
        fprintf(out, "%s:%zu: %.*s\n", turn->script->file, turn->line.number,
                (int)(turn->line.text.end - turn->line.text.at), turn->line.text.at);
    }
}

/* Starts a line of the answer; false where the answer is not printed. */
static bool start_answer(const struct turn *turn)
{
    if (turn->player->mode == PLAY_ALL) {
        fputs("    ", stdout);
        return true;
    }
    if (turn->player->mode == PLAY_FILL && !turn->expects) {
        fputs("-> ", stdout);
        return true;
    }
    return false;
}

/* Counts a difference; true where it is to be printed, and then the command stands before it. */
static bool count_difference(struct turn *turn)
{
    turn->player->differences++;
    turn->differences++;
    if (turn->differences > DIFFERENCES_SHOWN || turn->player->mode == PLAY_SILENT) {
        return false;
    }
    show_command(turn, differences_to(turn));
    return true;
}

void turn_start(struct turn *turn, struct place after)
{
    struct place place = after;
    struct line line;

    turn->answers = after;
    turn->next = after;
    turn->bindings = 0;
    turn->more = 0;
    turn->differences = 0;
    turn->expects = script_line(turn->script, &place, &line) && line.expected;
    turn->shown = false;
    if (turn->player->mode == PLAY_ALL) {
        show_command(turn, stdout);
    }
}

static void print_binding(FILE *out, const struct turn *turn, const struct binding *binding)
{
    name_print(out, &binding->name);
    fputs(" = ", out);
    value_print(out, &binding->value, name_object(&binding->name), turn->player->bridge.ports);
}

/* Takes the next expected answer of this command. The lines were checked, so that reading them cannot fail. */
static bool take_expected(const struct turn *turn, struct place *place, struct line *line, struct expected *expected)
{
    struct complaint why;

    return script_line(turn->script, place, line) && line->expected &&
           expected_read(line->text, turn->command.kind, expected, &why);
}

/* Prints what was expected; the caller prints what came, and ends the line. */
static FILE *start_difference(struct turn *turn, const struct line *line)
{
    FILE *out = differences_to(turn);

    fprintf(out, "%s:%zu: expected %.*s\n", turn->script->file, line->number, (int)(line->text.end - line->text.at),
            line->text.at);
    fprintf(out, "%s:%zu: got      ", turn->script->file, line->number);
    return out;
}

static bool binding_is(const struct turn *turn, const struct binding *got, const struct expected *expected)
{
    uint32_t ports = turn->player->bridge.ports;

    if (expected->kind == EXPECTED_BINDING && name_order(&got->name, &expected->binding.name) != 0) {
        return false;
    }
    return value_is(&got->value, &expected->binding.value, ports);
}

/* A walk ascends, so an expected instance below the one that came is missing. */
static bool is_missing(const struct turn *turn, const struct expected *expected, const struct binding *binding)
{
    return turn->command.kind == COMMAND_WALK && name_order(&expected->binding.name, &binding->name) < 0;
}

/* An instance of a walk that comes before the one that is expected next is one more than expected. */
static bool is_extra(const struct turn *turn, const struct expected *expected, const struct binding *binding)
{
    return turn->command.kind == COMMAND_WALK && name_order(&expected->binding.name, &binding->name) > 0;
}

static void note_missing(struct turn *turn, const struct line *line)
{
    turn->player->compared++;
    if (count_difference(turn)) {
        fputs("no such instance in the walk\n", start_difference(turn, line));
    }
}

static void note_extra(struct turn *turn, const struct binding *binding)
{
    FILE *out = differences_to(turn);

    if (count_difference(turn)) {
        fprintf(out, "%s:%zu: expected no such instance in the walk\n", turn->script->file, turn->line.number);
        fprintf(out, "%s:%zu: got      ", turn->script->file, turn->line.number);
        print_binding(out, turn, binding);
        putc('\n', out);
    }
}

/* Takes the next line that expects a binding, past those that a walk has passed by. */
static bool take_binding(struct turn *turn, const struct binding *binding, struct line *line, struct expected *expected)
{
    for (;;) {
        struct place place = turn->next;

        if (!take_expected(turn, &place, line, expected)) {
            turn->next.at = turn->script->size; /* no expected binding is left */
            return false;
        }
        if (expected_is_binding(expected) && is_extra(turn, expected, binding)) {
            return true;
        }
        turn->next = place;
        if (!expected_is_binding(expected)) {
            continue;
        }
        turn->bindings++;
        if (!is_missing(turn, expected, binding)) {
            return true;
        }
        note_missing(turn, line);
    }
}

static void compare_binding(struct turn *turn, const struct binding *binding)
{
    struct expected expected;
    struct line line;

    if (!take_binding(turn, binding, &line, &expected)) {
        turn->more++;
    } else if (is_extra(turn, &expected, binding)) {
        note_extra(turn, binding);
    } else {
        turn->player->compared++;
        if (!binding_is(turn, binding, &expected) && count_difference(turn)) {
            FILE *out = start_difference(turn, &line);

            print_binding(out, turn, binding);
            putc('\n', out);
        }
    }
}

void turn_binding(struct turn *turn, const struct binding *binding)
{
    if (start_answer(turn)) {
        print_binding(stdout, turn, binding);
        putchar('\n');
    }
    compare_binding(turn, binding);
}

void turn_octets(struct turn *turn, const uint8_t *octets, size_t count)
{
    if (start_answer(turn)) {
        octets_print(stdout, octets, count);
        putchar('\n');
    }
}

static void show_outcome(struct turn *turn, const struct outcome *outcome, const struct name *remark)
{
    if (outcome_is_bindings(outcome) || !start_answer(turn)) {
        return;
    }
    outcome_print(stdout, outcome);
    if (remark != NULL) {
        fputs("    # ", stdout);
        name_print(stdout, remark);
    }
    putchar('\n');
}

/* Compares the expected answers that are no bindings, and bindings that were expected and did not come. */
static void compare_outcome(struct turn *turn, const struct outcome *outcome)
{
    struct place place = turn->answers;
    struct expected expected;
    struct line line;

    for (;;) {
        bool compared = place.at < turn->next.at;

        if (!take_expected(turn, &place, &line, &expected)) {
            return;
        }
        if (expected_is_binding(&expected) && compared) {
            continue;
        }
        turn->player->compared++;
        if ((expected_is_binding(&expected) || !outcome_is(outcome, &expected)) && count_difference(turn)) {
            FILE *out = start_difference(turn, &line);

            outcome_print_beside(out, outcome, &expected);
            putc('\n', out);
        }
    }
}

void turn_end(struct turn *turn, const struct outcome *outcome, const struct name *remark)
{
    FILE *out = differences_to(turn);

    show_outcome(turn, outcome, remark);
    compare_outcome(turn, outcome);
    if (turn->bindings > 0 && turn->more > 0 && count_difference(turn)) {
        fprintf(out, "%s:%zu: expected no more bindings\n", turn->script->file, turn->line.number);
        fprintf(out, "%s:%zu: got      %zu more\n", turn->script->file, turn->line.number, turn->more);
    }
}

void turn_flaw(struct turn *turn, const char *flaw)
{
    if (count_difference(turn)) {
        fprintf(differences_to(turn), "%s:%zu: flaw: %s\n", turn->script->file, turn->line.number, flaw);
    }
}

void turn_finish(struct turn *turn)
{
    if (turn->differences > DIFFERENCES_SHOWN && turn->player->mode != PLAY_SILENT) {
        fprintf(differences_to(turn), "%s:%zu: %zu more differences of this command are not shown\n",
                turn->script->file, turn->line.number, turn->differences - DIFFERENCES_SHOWN);
    }
}
