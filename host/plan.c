#include "plan.h"

#include <inttypes.h>
#include <stdio.h>
#include <stdlib.h>

#include "command.h"
#include "datagram.h"
#include "message.h"

struct planning {
    struct plan *plan;
    const char *community;
    const struct script *script;
    size_t errors;
    bool first;  /* no command of the case stands before this one */
    size_t line; /* that starts the case */
    bool asks;   /* the case asks a switch something; true before the first case too */
};

static void tell_at(struct planning *planning, size_t line, const char *words)
{
    fprintf(stderr, "%s:%zu: %s\n", planning->script->file, line, words);
    planning->errors++;
}

/* What is asked of the library as a request must be one that a datagram can carry. */
static bool check_request(const struct octets *request, const char *community, struct complaint *why)
{
    static uint8_t datagram[RB_MESSAGE_MAX];
    size_t count;
    uint32_t number;

    if (request->count < 4 ||
        (request_kind(request) != RB_GET && request_kind(request) != RB_GET_NEXT && request_kind(request) != RB_SET)) {
        return complain(why, "these octets are no SNMP request, so a switch cannot be asked");
    }
    number = request_datagram(request, 0, community, datagram, &count);
    return number == RB_ANSWERED ||
           complain(why, "no datagram can carry this (%" PRIu32 "), so a switch cannot be asked", number);
}

static bool check_walk(const struct name *name, const char *community, struct complaint *why)
{
    struct octets request;

    request_start(&request, RB_GET_NEXT, 0);
    request_add(&request, name, NULL);
    return check_request(&request, community, why);
}

/* The words of a command, from the first to the last, without the comment behind them. */
static struct text words_of(struct text command)
{
    struct text left = command, words = {command.at, command.at};

    while (!text_is_done(&left)) {
        words.end = text_word(&left, "").end;
    }
    return words;
}

static bool take_bridge(struct planning *planning, const struct line *line, struct complaint *why)
{
    struct plan *plan = planning->plan;

    if (!planning->first) {
        return complain(why, "on a switch only the first command of a case sets a bridge up");
    }
    plan->cases[plan->count - 1].bridge = words_of(line->text);
    plan->bridges++;
    return true;
}

static bool take_command(struct planning *planning, const struct command *command, const struct line *line,
                         struct complaint *why)
{
    if (planning->plan->count == 0) {
        return complain(why, "the command stands before the first case");
    }
    switch (command->kind) {
    case COMMAND_BRIDGE:
        return take_bridge(planning, line, why);
    case COMMAND_WALK:
        planning->asks = true;
        return check_walk(&command->name, planning->community, why);
    case COMMAND_GET:
    case COMMAND_NEXT:
    case COMMAND_SET:
    case COMMAND_RAW:
        planning->asks = true;
        return check_request(&command->octets, planning->community, why);
    default:
        return complain(why, "a switch cannot be asked this");
    }
}

/* A case that asks nothing would pass with nothing compared. */
static void end_case(struct planning *planning)
{
    if (!planning->asks) {
        tell_at(planning, planning->line, "the case asks a switch nothing");
    }
    planning->asks = true;
}

static void take_case(struct planning *planning, const struct command *command, size_t line, struct place after)
{
    end_case(planning);
    planning->plan->cases[planning->plan->count++] =
        (struct planned){.id = command->number, .title = command->title, .script = planning->script, .place = after};
    planning->first = true;
    planning->line = line;
    planning->asks = false;
}

static void take_script(struct planning *planning)
{
    static struct command command;
    struct place place = SCRIPT_START;
    struct complaint why;
    struct line line;

    while (script_line(planning->script, &place, &line)) {
        if (line.expected || !command_read(line.text, (uint32_t)line.number, &command, &why)) {
            continue;
        }
        if (command.kind == COMMAND_CASE) {
            take_case(planning, &command, line.number, place);
            continue;
        }
        if (!take_command(planning, &command, &line, &why)) {
            planning->asks = true; /* one error is enough */
            tell_at(planning, line.number, why.words);
        }
        planning->first = false;
    }
    end_case(planning);
}

static size_t tell(const char *file, const char *words)
{
    fprintf(stderr, "%s: %s\n", file, words);
    return 1;
}

size_t plan_make(struct plan *plan, const struct submission *submission, const char *community)
{
    struct planning planning = {.plan = plan, .community = community, .asks = true};

    *plan = (struct plan){.cases = calloc(submission->cases + 1, sizeof *plan->cases)};
    if (plan->cases == NULL) {
        return tell(submission->manifest.file, "no memory");
    }
    if (submission->cases > RB_CASES_MAX) {
        return tell(submission->manifest.file, "a night has at most 65535 cases");
    }
    for (size_t i = 0; i < submission->count; i++) {
        planning.script = &submission->scripts[i];
        take_script(&planning);
    }
    if (plan->count > 0 && plan->cases[0].bridge.at == NULL) {
        planning.errors += tell(submission->manifest.file, "the first case does not start with a bridge");
    }
    return planning.errors;
}

void plan_free(struct plan *plan)
{
    free(plan->cases);
}
