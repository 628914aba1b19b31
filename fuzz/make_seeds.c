/* Turns case files into inputs of the fuzzer.
 *
 *   make_seeds FOLDER CASE-FILE...
 *
 * Every command that a bridge is asked by becomes a step; the player's own reader (host/command.c) makes the requests.
 * A new input starts with each set-up, and after some steps, since short inputs are changed to more purpose; then it has
 * the last steps of the one before, so that most requests find what they build on. Each is written twice, for a fresh
 * bridge and for one with full tables. */
#include <stdio.h>
#include <stdlib.h>
#include <string.h>

#include "command.h"
#include "input.h"
#include "message.h"
#include "refbridge.h"
#include "script.h"

enum { SEED_STEPS = 16, SEED_OCTETS = 4096, SEED_SHARED = 8 };

static struct input input;
static size_t input_octets;
static unsigned written;

static void stop(const char *why, const char *what)
{
    fprintf(stderr, "make_seeds: %s: %s\n", what, why);
    exit(1);
}

/* Writes what there is as one input. */
static void write_input(const char *folder)
{
    static uint8_t octets[STEPS_MAX * (STEP_MAX + 3)];
    char path[4096];
    size_t length = input_write(&input, octets, sizeof octets);
    FILE *file;

    snprintf(path, sizeof path, "%s/%04u", folder, written++);
    file = fopen(path, "wb");
    if (file == NULL || fwrite(octets, 1, length, file) != length || fclose(file) != 0) {
        stop("cannot be written", path);
    }
}

/* Writes the steps for a fresh bridge and for one with full tables, and starts the next input with the same ports. */
static void finish_input(const char *folder)
{
    if (input.count == 0) {
        return;
    }
    write_input(folder);
    input.start |= START_FULL;
    write_input(folder);
    input.start &= (uint16_t)~START_FULL;
    input.count = 0;
    input_octets = 0;
}

/* Goes on in a new input with the last steps of this one. */
static void continue_input(const char *folder)
{
    size_t kept = input.count < SEED_SHARED ? input.count : SEED_SHARED;
    size_t from = input.count - kept;

    finish_input(folder);
    memmove(input.steps, input.steps + from, kept * sizeof input.steps[0]);
    input.count = kept;
}

static void put_octets(struct step *step, uint8_t tag, const struct octets *octets)
{
    step->tag = tag;
    step->length = octets->count < STEP_MAX ? octets->count : STEP_MAX;
    memcpy(step->octets, octets->at, step->length);
}

/* A walk becomes its first get-next. */
static void put_walk(struct step *step, const struct name *name)
{
    struct octets request;

    request_start(&request, RB_GET_NEXT, 1);
    request_add(&request, name, NULL);
    put_octets(step, STEP_REQUEST, &request);
}

static void put_patch(struct step *step, const struct command *command)
{
    step_put_number(step, STEP_PATCH, command->number);
    size_t length = command->octets.count < STEP_MAX - 2 ? command->octets.count : STEP_MAX - 2;
    memcpy(step->octets + 2, command->octets.at, length);
    step->length = 2 + length;
}

/* Adds the command's step; false for a command that is none. */
static bool put_step(struct step *step, const struct command *command)
{
    switch (command->kind) {
    case COMMAND_GET:
    case COMMAND_NEXT:
    case COMMAND_SET:
    case COMMAND_RAW:
        put_octets(step, STEP_REQUEST, &command->octets);
        return true;
    case COMMAND_WALK:
        put_walk(step, &command->name);
        return true;
    case COMMAND_POKE:
        put_patch(step, command);
        return true;
    case COMMAND_ROOM:
        step_put_number(step, STEP_ROOM, command->number);
        return true;
    case COMMAND_SIZE:
        step_put_number(step, STEP_SIZE, command->number);
        return true;
    default:
        return false;
    }
}

static void take_command(const char *folder, const struct command *command)
{
    if (command->kind == COMMAND_BRIDGE) {
        finish_input(folder);
        input.start = (uint16_t)((command->number - 1) & START_PORTS);
        input.start |= command->edition == RB_EDITION_NEW ? START_EDITION : 0;
        input.start |= command->device == RB_DEVICE_SOURCE_ROUTING ? START_DEVICE : 0;
        return;
    }
    if (input.count == SEED_STEPS || input_octets > SEED_OCTETS) {
        continue_input(folder);
    }
    if (put_step(&input.steps[input.count], command)) {
        input_octets += 3 + input.steps[input.count].length;
        input.count++;
    }
}

static void take_file(const char *folder, const char *file)
{
    struct script script;
    struct place place = SCRIPT_START;
    struct line line;
    struct complaint why;
    static struct command command;

    if (!script_load(&script, file, &why)) {
        stop(why.words, file);
    }
    while (script_line(&script, &place, &line)) {
        if (line.expected) {
            continue;
        }
        if (!command_read(line.text, (uint32_t)line.number, &command, &why)) {
            stop(why.words, file);
        }
        take_command(folder, &command);
    }
    finish_input(folder);
    script_free(&script);
}

int main(int argc, char **argv)
{
    if (argc < 3) {
        stop("usage", "make_seeds FOLDER CASE-FILE...");
    }
    for (int i = 2; i < argc; i++) {
        take_file(argv[1], argv[i]);
    }
    printf("%u inputs from %d case files\n", written, argc - 2);
    return 0;
}
