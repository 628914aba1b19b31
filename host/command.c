#include "command.h"

#include "message.h"
#include "refbridge.h"

/* Takes an address as 00:11:22:33:44:55. Other counts than six are taken too, to try what set-up refuses. */
static bool read_address(struct text *text, struct octets *octets, struct complaint *why)
{
    struct text word = text_word(text, "");
    struct text rest = word;

    if (word.at == word.end) {
        return complain(why, "the bridge's address is missing");
    }
    for (;;) {
        struct text pair = text_run(&rest, ":");

        if (pair.end - pair.at != 2) {
            return complain(why, "an address is written 00:11:22:33:44:55: '%.*s'", text_quoted(word), word.at);
        }
        if (!text_hex(pair, octets, why)) {
            return false;
        }
        if (rest.at == rest.end) {
            return true;
        }
        rest.at++; /* the colon */
    }
}

/* The words `edition E` and `device D` at the end of the line, in either order, each once or not at all. Any number is
 * taken, to try what set-up refuses. */
static bool read_model(struct text *text, struct command *command, struct complaint *why)
{
    struct {
        const char *word, *what;
        uint32_t *place;
        bool taken;
    } options[] = {{"edition", "the edition", &command->edition, false}, {"device", "the device", &command->device, false}};

    command->edition = RB_EDITION_OLD;
    command->device = RB_DEVICE_TRANSPARENT;
    while (!text_is_done(text)) {
        struct text word = text_word(text, "");
        size_t i = text_is(word, options[0].word) ? 0 : 1;
        uint64_t number;

        if (!text_is(word, options[i].word) || options[i].taken) {
            return complain(why, "after the address stand edition E and device D, each once or not at all: '%.*s'",
                            text_quoted(word), word.at);
        }
        if (!text_take_number(text, options[i].what, UINT32_MAX, &number, why)) {
            return false;
        }
        *options[i].place = (uint32_t)number;
        options[i].taken = true;
    }
    return true;
}

static bool read_bridge(struct text *text, struct command *command, struct complaint *why)
{
    uint64_t ports;

    if (!text_take_number(text, "the number of ports", UINT32_MAX, &ports, why)) {
        return false;
    }
    command->number = (uint32_t)ports;
    return read_address(text, &command->octets, why) && read_model(text, command, why);
}

static bool add_binding(struct command *command, const struct name *name, const struct value *value,
                        struct complaint *why)
{
    if (!request_add(&command->octets, name, value)) {
        return complain(why, "the request would have over %u octets", OCTETS_MAX);
    }
    return true;
}

/* A get or get-next: one name or more. */
static bool read_names(struct text *text, struct command *command, struct complaint *why)
{
    struct name name;

    do {
        if (!name_take(text, "", &name, why) || !add_binding(command, &name, NULL, why)) {
            return false;
        }
    } while (!text_is_done(text));
    return true;
}

/* A set: one NAME=TYPE:VALUE or more, with blanks around the = or without. */
static bool read_settings(struct text *text, struct command *command, struct complaint *why)
{
    struct name name;
    struct value value;

    do {
        if (!name_take(text, "=", &name, why)) {
            return false;
        }
        text_skip_blanks(text);
        if (text->at == text->end || *text->at != '=') {
            return complain(why, "a set has NAME=TYPE:VALUE, and '=' is missing");
        }
        text->at++;
        if (!value_read(text, &value, why) || !add_binding(command, &name, &value, why)) {
            return false;
        }
    } while (!text_is_done(text));
    return true;
}

static bool read_walk(struct text *text, struct command *command, struct complaint *why)
{
    return name_take(text, "", &command->name, why);
}

static bool read_nothing(struct text *text, struct command *command, struct complaint *why)
{
    (void)text, (void)command, (void)why;
    return true;
}

static bool read_raw(struct text *text, struct command *command, struct complaint *why)
{
    return text_hex_words(text, &command->octets, why);
}

static bool read_poke(struct text *text, struct command *command, struct complaint *why)
{
    uint64_t offset;

    if (!text_take_number(text, "the offset", RB_BLOCK_SIZE - 1, &offset, why) ||
        !text_hex_words(text, &command->octets, why)) {
        return false;
    }
    command->number = (uint32_t)offset;
    if (command->octets.count == 0) {
        return complain(why, "the octets to poke are missing");
    }
    if (command->octets.count > RB_BLOCK_SIZE - offset) {
        return complain(why, "the octets pass the end of the block");
    }
    return true;
}

static bool read_number(struct text *text, const char *what, uint64_t most, struct command *command,
                        struct complaint *why)
{
    uint64_t number;

    if (!text_take_number(text, what, most, &number, why)) {
        return false;
    }
    command->number = (uint32_t)number;
    return true;
}

static bool read_size(struct text *text, struct command *command, struct complaint *why)
{
    return read_number(text, "the block's length", BLOCK_LENT_MAX, command, why);
}

static bool read_room(struct text *text, struct command *command, struct complaint *why)
{
    return read_number(text, "the room's length", ROOM_LENT_MAX, command, why);
}

static bool read_timer(struct text *text, struct command *command, struct complaint *why)
{
    return read_number(text, "the timer", UINT32_MAX, command, why);
}

/* The title runs to the end of the line, or to a comment. */
static bool read_case(struct text *text, struct command *command, struct complaint *why)
{
    if (!read_number(text, "the case's id", UINT32_MAX, command, why)) {
        return false;
    }
    text_skip_blanks(text);
    command->title = (struct text){text->at, text->at};
    while (!text_is_done(text)) {
        command->title.end = text_word(text, "").end;
    }
    return command->title.at < command->title.end || complain(why, "the case's title is missing");
}

static const struct {
    const char *word;
    bool (*read)(struct text *text, struct command *command, struct complaint *why);
} forms[] = {
    [COMMAND_CASE] = {"case", read_case},
    [COMMAND_BRIDGE] = {"bridge", read_bridge},
    [COMMAND_RESET] = {"reset", read_nothing},
    [COMMAND_GET] = {"get", read_names},
    [COMMAND_NEXT] = {"next", read_names},
    [COMMAND_WALK] = {"walk", read_walk},
    [COMMAND_SET] = {"set", read_settings},
    [COMMAND_RAW] = {"raw", read_raw},
    [COMMAND_POKE] = {"poke", read_poke},
    [COMMAND_SIZE] = {"size", read_size},
    [COMMAND_ROOM] = {"room", read_room},
    [COMMAND_TO_256THS] = {"to256ths", read_timer},
    [COMMAND_TO_HUNDREDTHS] = {"tohundredths", read_timer},
};

#define FORMS (sizeof forms / sizeof forms[0])

static uint8_t message_kind(enum command_kind kind)
{
    return kind == COMMAND_SET ? RB_SET : kind == COMMAND_NEXT ? RB_GET_NEXT : RB_GET;
}

bool command_read(struct text line, uint32_t id, struct command *command, struct complaint *why)
{
    struct text word = text_word(&line, "");
    size_t form = 0;

    while (form < FORMS && !text_is(word, forms[form].word)) {
        form++;
    }
    if (form == FORMS) {
        return complain(why, "no command: '%.*s'", text_quoted(word), word.at);
    }
    command->kind = (enum command_kind)form;
    command->octets.count = 0;
    if (command->kind == COMMAND_GET || command->kind == COMMAND_NEXT || command->kind == COMMAND_SET) {
        request_start(&command->octets, message_kind(command->kind), id);
    }
    if (!forms[form].read(&line, command, why)) {
        return false;
    }
    if (!text_is_done(&line)) {
        return complain(why, "more than the command takes: '%.*s'", text_quoted(line), line.at);
    }
    return true;
}

bool command_calls(enum command_kind kind)
{
    return kind != COMMAND_CASE && kind != COMMAND_POKE && !command_lends(kind);
}

bool command_lends(enum command_kind kind)
{
    return kind == COMMAND_SIZE || kind == COMMAND_ROOM;
}

bool command_takes_lent(enum command_kind kind)
{
    return command_calls(kind) && kind != COMMAND_TO_256THS && kind != COMMAND_TO_HUNDREDTHS;
}

bool command_needs_bridge(enum command_kind kind)
{
    return kind == COMMAND_POKE || (command_takes_lent(kind) && kind != COMMAND_BRIDGE);
}
