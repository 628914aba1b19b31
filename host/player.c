#include "player.h"

#include <stdio.h>
#include <string.h>

#include "message.h"
#include "refbridge.h"
#include "signals.h"
#include "transcript.h"

static struct outcome refused(uint32_t number)
{
    return (struct outcome){.kind = OUTCOME_REFUSED, .number = number};
}

static void note_flaw(struct turn *turn, const char *flaw)
{
    if (flaw != NULL) {
        turn_flaw(turn, flaw);
    }
}

/* Set-up and reset, which are done or refused. */
static void play_block_call(struct turn *turn)
{
    struct bridge *bridge = &turn->player->bridge;
    const struct command *command = &turn->command;
    struct reply reply = command->kind == COMMAND_RESET ? bridge_reset(bridge) : bridge_setup(bridge, command);
    struct outcome outcome = refused(reply.number);

    if (reply.number == RB_ANSWERED) {
        outcome = (struct outcome){.kind = OUTCOME_DONE};
    }
    turn_end(turn, &outcome, NULL);
    note_flaw(turn, reply.flaw);
}

static void play_timer(struct turn *turn)
{
    uint32_t timer = turn->command.number;
    struct reply reply =
        turn->command.kind == COMMAND_TO_256THS ? bridge_to_256ths(timer) : bridge_to_hundredths(timer);
    struct outcome outcome = refused(reply.number);

    if (reply.number == RB_ANSWERED) {
        outcome = (struct outcome){.kind = OUTCOME_CONVERTED, .number = reply.count};
    }
    turn_end(turn, &outcome, NULL);
    note_flaw(turn, reply.flaw);
}

/* Only an accepted set may change the block. */
static const char *message_flaw(const struct player *player, const struct outcome *outcome,
                                const struct octets *request)
{
    bool may_change = outcome->set && outcome->kind == OUTCOME_ANSWERED && outcome->answer.status == RB_NO_ERROR;

    if (outcome->kind == OUTCOME_NO_RESPONSE) {
        return "the answer is no response in the message form";
    }
    if (!may_change && bridge_changed(&player->bridge)) {
        return "the block changed though no set was accepted";
    }
    return outcome->kind == OUTCOME_ANSWERED ? answer_flaw(&outcome->answer, request) : NULL;
}

/* Gives a request to the library. The first flaw of the call is noted in the reply. */
static struct outcome ask(struct player *player, const struct octets *request, struct reply *reply)
{
    struct bridge *bridge = &player->bridge;
    struct outcome outcome;

    *reply = bridge_answer(bridge, request);
    if (player->witness != NULL) {
        player->witness(player, request, reply);
    }
    if (reply->number != RB_ANSWERED) {
        outcome = refused(reply->number);
        outcome.offset = reply->offset;
        outcome.octets = request->at;
        outcome.count = request->count;
        return outcome;
    }
    outcome = (struct outcome){.kind = OUTCOME_NO_RESPONSE,
                               .set = request_kind(request) == RB_SET,
                               .octets = bridge->room,
                               .count = reply->count <= ROOM_LENT_MAX ? reply->count : 0};
    if (answer_read(&outcome.answer, outcome.octets, outcome.count)) {
        outcome.kind = OUTCOME_ANSWERED;
    }
    if (reply->flaw == NULL) {
        reply->flaw = message_flaw(player, &outcome, request);
    }
    return outcome;
}

/* The name of the binding at fault, or NULL. */
static const struct name *name_at_fault(const struct outcome *outcome, struct binding *binding)
{
    struct answer answer = outcome->answer;

    if (outcome->kind != OUTCOME_ANSWERED || answer.index == 0 || answer.index > answer.bindings) {
        return NULL;
    }
    for (unsigned i = 0; i < outcome->answer.index; i++) {
        answer_binding(&answer, binding);
    }
    return &binding->name;
}

static void play_message(struct turn *turn)
{
    struct reply reply;
    struct outcome outcome = ask(turn->player, &turn->command.octets, &reply);
    struct binding binding;

    if (turn->command.kind == COMMAND_RAW && outcome.kind == OUTCOME_ANSWERED) {
        turn_octets(turn, outcome.octets, outcome.count);
    }
    if (outcome_is_bindings(&outcome)) {
        struct answer answer = outcome.answer;

        while (answer_binding(&answer, &binding)) {
            turn_binding(turn, &binding);
        }
    }
    turn_end(turn, &outcome, name_at_fault(&outcome, &binding));
    note_flaw(turn, reply.flaw);
}

/* One step of a walk: get-next of `name`, whose answer is the next instance. False where the walk ends there. */
static bool step(struct turn *turn, struct binding *next, struct outcome *outcome)
{
    struct octets *request = &turn->command.octets; /* in the turn, as a refusal's outcome shows it */
    struct reply reply;
    struct name name = next->name;

    request_start(request, RB_GET_NEXT, (uint32_t)turn->line.number);
    request_add(request, &name, NULL);
    *outcome = ask(turn->player, request, &reply);
    note_flaw(turn, reply.flaw);
    if (turn->player->stopped || outcome->kind != OUTCOME_ANSWERED || !answer_binding(&outcome->answer, next) ||
        next->value.tag == RB_TAG_END_OF_MIB_VIEW || !name_is_under(&next->name, &turn->command.name)) {
        return false;
    }
    if (name_order(&next->name, &name) <= 0) {
        turn_flaw(turn, "a walk does not ascend");
        return false;
    }
    return true;
}

static void play_walk(struct turn *turn)
{
    struct binding next = {.name = turn->command.name};
    struct outcome outcome;
    uint32_t instances = 0;

    while (step(turn, &next, &outcome)) {
        instances++;
        turn_binding(turn, &next);
    }
    if (outcome.kind == OUTCOME_ANSWERED) {
        outcome = (struct outcome){.kind = OUTCOME_WALKED, .number = instances};
    }
    turn_end(turn, &outcome, NULL);
}

/* Commands that call nothing change what the next call is given. */
static void prepare(struct bridge *bridge, const struct command *command)
{
    switch (command->kind) {
    case COMMAND_POKE:
        memcpy(bridge->block + command->number, command->octets.at, command->octets.count);
        break;
    case COMMAND_SIZE:
        bridge->block_lent = command->number;
        break;
    default:
        bridge->room_lent = command->number;
        break;
    }
}

static void play_command(struct turn *turn)
{
    switch (turn->command.kind) {
    case COMMAND_BRIDGE:
    case COMMAND_RESET:
        play_block_call(turn);
        break;
    case COMMAND_TO_256THS:
    case COMMAND_TO_HUNDREDTHS:
        play_timer(turn);
        return; /* takes neither block nor room, so their lengths still wait for the next call */
    case COMMAND_WALK:
        play_walk(turn);
        break;
    default:
        play_message(turn);
        break;
    }
    bridge_lend_whole(&turn->player->bridge);
}

/* Copies the file up to a place, so that answers stand after their command. */
static void copy_until(struct turn *turn, size_t *copied, size_t end)
{
    if (turn->player->mode == PLAY_FILL) {
        fwrite(turn->script->text + *copied, 1, end - *copied, stdout);
        *copied = end;
    }
}

/* Plays the command of a line that was checked. */
static void play_line(struct turn *turn, struct place after)
{
    struct player *player = turn->player;

    player->line = turn->line;
    stopping_note(turn->script->file, turn->line.number, turn->line.text);
    turn_start(turn, after);
    if (turn->command.kind == COMMAND_CASE) {
        player->cases++;
    } else if (!command_calls(turn->command.kind)) {
        prepare(&player->bridge, &turn->command);
    } else {
        play_command(turn);
        turn_finish(turn);
        player->commands++;
        progress_step(&player->progress, player->commands);
    }
}

bool player_play(struct player *player, const struct script *script)
{
    struct turn turn = {.player = player, .script = script};
    struct place place = SCRIPT_START;
    struct complaint why;
    size_t copied = 0;

    bridge_clear(&player->bridge);
    while (!ferror(stdout) && script_line(script, &place, &turn.line)) {
        if (!turn.line.expected && command_read(turn.line.text, (uint32_t)turn.line.number, &turn.command, &why)) {
            copy_until(&turn, &copied, place.at);
            play_line(&turn, place);
        }
    }
    copy_until(&turn, &copied, script->size);
    return fflush(stdout) == 0 && !ferror(stdout);
}

void player_play_case(struct player *player, const struct script *script, struct place place)
{
    struct turn turn = {.player = player, .script = script};
    struct complaint why;

    while (!player->stopped && script_line(script, &place, &turn.line)) {
        if (turn.line.expected || !command_read(turn.line.text, (uint32_t)turn.line.number, &turn.command, &why)) {
            continue;
        }
        if (turn.command.kind == COMMAND_CASE) {
            return;
        }
        play_line(&turn, place);
        if (player->differed_at == 0 && turn.differences > 0) {
            player->differed_at = turn.line.number;
        }
    }
}
