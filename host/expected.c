#include "expected.h"

#include <string.h>

#include "codes.h"
#include "refbridge.h"

/* Answers of a message, and those of a get or get-next besides. */
#define OF_MESSAGE (EXPECTED_REFUSED | EXPECTED_STATUS | EXPECTED_OCTETS)
#define OF_GET (EXPECTED_BINDING | EXPECTED_CONTENT)

/* The kinds of answer that a command can have; none for one that makes no call. */
static unsigned fitting(enum command_kind command)
{
    switch (command) {
    case COMMAND_BRIDGE:
    case COMMAND_RESET:
        return EXPECTED_REFUSED | EXPECTED_ACCEPTED;
    case COMMAND_GET:
    case COMMAND_NEXT:
        return OF_MESSAGE | OF_GET;
    case COMMAND_SET:
        return OF_MESSAGE | EXPECTED_ACCEPTED;
    case COMMAND_RAW:
        return OF_MESSAGE | OF_GET | EXPECTED_ACCEPTED;
    case COMMAND_WALK:
        return EXPECTED_REFUSED | EXPECTED_BINDING | EXPECTED_INSTANCES;
    case COMMAND_TO_256THS:
    case COMMAND_TO_HUNDREDTHS:
        return EXPECTED_REFUSED | EXPECTED_VALUE;
    default:
        return 0;
    }
}

/* After a number its name may stand in brackets, as the player prints it; it must be that number's name. */
static bool take_name_in_brackets(struct text *text, const char *name, struct complaint *why)
{
    const char *close;
    struct text words;

    if (text_is_done(text) || *text->at != '(') {
        return true;
    }
    close = memchr(text->at, ')', (size_t)(text->end - text->at));
    words = (struct text){text->at + 1, close == NULL ? text->end : close};
    if (close == NULL || name == NULL || !text_is(words, name)) {
        return complain(why, "the number has another name than '%.*s'", text_quoted(words), words.at);
    }
    text->at = close + 1;
    return true;
}

/* After a refusal 4 to 8 the offset where the request broke may stand. */
static bool take_offset(struct text *text, struct expected *expected, struct complaint *why)
{
    uint64_t offset;

    expected->has_offset = !text_is_done(text);
    if (!expected->has_offset) {
        return true;
    }
    if (!text_is(text_word(text, ""), "at")) {
        return complain(why, "a refusal is written: refused N, or refused N at OFFSET");
    }
    if (!refusal_has_offset(expected->number)) {
        return complain(why, "only the refusals 4 to 8 have an offset");
    }
    if (!text_take_number(text, "the offset", RB_MESSAGE_MAX, &offset, why)) {
        return false;
    }
    expected->offset = (uint32_t)offset;
    return true;
}

static bool read_refused(struct text *text, struct expected *expected, struct complaint *why)
{
    uint64_t number;

    if (!text_take_number(text, "the refusal", RB_TIMER_RANGE, &number, why)) {
        return false;
    }
    if (number == RB_ANSWERED) {
        return complain(why, "0 is no refusal");
    }
    expected->number = (uint32_t)number;
    return take_name_in_brackets(text, refusal_name(expected->number), why) && take_offset(text, expected, why);
}

static bool read_status(struct text *text, struct expected *expected, struct complaint *why)
{
    struct text word = text_word(text, "");
    uint64_t index;

    if (!status_read(word, &expected->number)) {
        return complain(why, "no status by number or name: '%.*s'", text_quoted(word), word.at);
    }
    if (!take_name_in_brackets(text, status_name(expected->number), why)) {
        return false;
    }
    if (!text_is(text_word(text, ""), "index")) {
        return complain(why, "a status is written: status N index N");
    }
    if (!text_take_number(text, "the index", UINT8_MAX, &index, why)) {
        return false;
    }
    expected->index = (uint32_t)index;
    return true;
}

static bool read_accepted(struct text *text, struct expected *expected, struct complaint *why)
{
    (void)text, (void)expected, (void)why;
    return true;
}

static bool read_octets(struct text *text, struct expected *expected, struct complaint *why)
{
    return text_hex_words(text, &expected->octets, why);
}

static bool read_count(struct text *text, struct expected *expected, struct complaint *why)
{
    uint64_t number;

    if (!text_take_number(text, "the number", UINT32_MAX, &number, why)) {
        return false;
    }
    expected->number = (uint32_t)number;
    return true;
}

static bool read_binding(struct text *text, struct expected *expected, struct complaint *why)
{
    if (!name_take(text, "=", &expected->binding.name, why)) {
        return false;
    }
    text_skip_blanks(text);
    if (text->at == text->end || *text->at != '=') {
        return complain(why, "an expected binding is NAME = VALUE, and '=' is missing");
    }
    text->at++;
    return value_read_answered(text, &expected->binding.value, why);
}

static const struct {
    const char *word;
    enum expected_kind kind;
    bool (*read)(struct text *text, struct expected *expected, struct complaint *why);
} forms[] = {
    {"refused", EXPECTED_REFUSED, read_refused},    {"status", EXPECTED_STATUS, read_status},
    {"accepted", EXPECTED_ACCEPTED, read_accepted}, {"octets", EXPECTED_OCTETS, read_octets},
    {"instances", EXPECTED_INSTANCES, read_count},  {"value", EXPECTED_VALUE, read_count},
};

#define FORMS (sizeof forms / sizeof forms[0])

/* Reads what the first word says; a word that says no other kind starts a binding. */
static bool read_form(struct text *text, struct expected *expected, struct complaint *why)
{
    struct text rest = *text;
    struct text word = text_word(&rest, "");

    for (size_t i = 0; i < FORMS; i++) {
        if (text_is(word, forms[i].word)) {
            *text = rest;
            expected->kind = forms[i].kind;
            return forms[i].read(text, expected, why);
        }
    }
    if (value_exception(word) != 0) {
        expected->kind = EXPECTED_CONTENT;
        return value_read_answered(text, &expected->binding.value, why);
    }
    expected->kind = EXPECTED_BINDING;
    return read_binding(text, expected, why);
}

bool expected_read(struct text text, enum command_kind command, struct expected *expected, struct complaint *why)
{
    expected->octets.count = 0;
    if (fitting(command) == 0) {
        return complain(why, "the command before makes no call, so it has no answer");
    }
    if (text_is_done(&text)) {
        return complain(why, "the expected answer is missing");
    }
    if (!read_form(&text, expected, why)) {
        return false;
    }
    if (!text_is_done(&text)) {
        return complain(why, "more than the expected answer: '%.*s'", text_quoted(text), text.at);
    }
    if ((fitting(command) & (unsigned)expected->kind) == 0) {
        return complain(why, "the command before never has such an answer");
    }
    return true;
}

bool expected_is_binding(const struct expected *expected)
{
    return expected->kind == EXPECTED_BINDING || expected->kind == EXPECTED_CONTENT;
}
