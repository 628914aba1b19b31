#define _POSIX_C_SOURCE 200809L
#include "script.h"

#include <errno.h>
#include <stdio.h>
#include <stdlib.h>
#include <string.h>
#include <sys/stat.h>

#include "command.h"
#include "expected.h"

#define SCRIPT_MAX ((size_t)1 << 28) /* octets of a file */
#define FIRST_ROOM ((size_t)1 << 16)

/* Makes room for more text, twice as much as before. */
static bool grow(struct script *script, size_t *room, struct complaint *why)
{
    char *text;

    if (script->size == SCRIPT_MAX) {
        return complain(why, "the file has over %zu octets", SCRIPT_MAX);
    }
    *room = *room == 0 ? FIRST_ROOM : 2 * *room;
    text = realloc(script->text, *room);
    if (text == NULL) {
        return complain(why, "no memory for the file");
    }
    script->text = text;
    return true;
}

static bool read_all(struct script *script, FILE *stream, struct complaint *why)
{
    size_t room = 0, got;

    do {
        if (script->size == room && !grow(script, &room, why)) {
            return false;
        }
        got = fread(script->text + script->size, 1, room - script->size, stream);
        script->size += got;
    } while (got > 0);
    if (ferror(stream)) {
        return complain(why, "the file cannot be read: %s", strerror(errno));
    }
    return true;
}

/* Notes which file it is, whatever name it was given by. */
static void note_identity(struct script *script, FILE *stream)
{
    struct stat status;

    if (fstat(fileno(stream), &status) == 0) {
        script->device = status.st_dev;
        script->inode = status.st_ino;
    }
}

bool script_load(struct script *script, const char *file, struct complaint *why)
{
    FILE *stream = strcmp(file, "-") == 0 ? stdin : fopen(file, "rb");
    bool loaded;

    *script = (struct script){.file = file};
    if (stream == NULL) {
        return complain(why, "the file cannot be opened: %s", strerror(errno));
    }
    note_identity(script, stream);
    loaded = read_all(script, stream, why);
    if (stream != stdin) {
        fclose(stream);
    }
    return loaded;
}

void script_free(struct script *script)
{
    free(script->text);
    script->text = NULL;
}

bool script_is_same(const struct script *a, const struct script *b)
{
    return a->device == b->device && a->inode == b->inode;
}

/* Some editors write these three octets before a text in UTF-8. */
static const char byte_order_mark[] = {'\xEF', '\xBB', '\xBF'};

static size_t first_octet(const struct script *script)
{
    size_t length = sizeof byte_order_mark;

    return script->size >= length && memcmp(script->text, byte_order_mark, length) == 0 ? length : 0;
}

/* Takes the next line whole, without its end: a line feed, or carriage return and line feed. */
static bool take_line(const struct script *script, struct place *place, struct text *line)
{
    const char *feed;

    if (place->at == 0) {
        place->at = first_octet(script);
    }
    if (place->at == script->size) {
        return false;
    }
    line->at = script->text + place->at;
    line->end = script->text + script->size;
    feed = memchr(line->at, '\n', script->size - place->at);
    if (feed != NULL) {
        line->end = feed;
    }
    place->at = (size_t)(line->end - script->text) + (feed != NULL ? 1 : 0);
    place->number++;
    if (line->end > line->at && line->end[-1] == '\r') {
        line->end--;
    }
    return true;
}

static void cut_blanks(struct text *text)
{
    text_skip_blanks(text);
    while (text->end > text->at && (text->end[-1] == ' ' || text->end[-1] == '\t')) {
        text->end--;
    }
}

/* Cuts a whole line to what it says; false where it says nothing. */
static bool cut_line(struct line *line)
{
    cut_blanks(&line->text);
    if (text_is_done(&line->text)) {
        return false;
    }
    line->expected = line->text.end - line->text.at >= 2 && memcmp(line->text.at, "->", 2) == 0;
    if (line->expected) {
        line->text.at += 2;
        cut_blanks(&line->text);
    }
    return true;
}

bool script_line(const struct script *script, struct place *place, struct line *line)
{
    do {
        line->number = place->number;
        if (!take_line(script, place, &line->text)) {
            return false;
        }
    } while (!cut_line(line));
    return true;
}

/* A damaged file may hold other octets than text, in a comment too. */
static bool check_text(struct text line, struct complaint *why)
{
    for (const char *c = line.at; c < line.end; c++) {
        if (((unsigned char)*c < ' ' && *c != '\t') || *c == 0x7F) {
            return complain(why, "the line has an octet that is no text: %02X hex", (unsigned char)*c);
        }
    }
    return true;
}

/* What the check of a line must know of the lines before it. */
struct check {
    struct script *script;
    struct ids *ids;
    size_t errors;
    bool commanded;         /* there is a command before */
    bool unread;            /* it cannot be read, and neither can its answers */
    bool bridge;            /* a bridge was set up before */
    enum command_kind kind; /* of the last command */
    size_t size_at;         /* the line of a size that no command has used yet, or 0 */
    size_t room_at;         /* the same of a room */
};

static void report(struct check *check, size_t line, const struct complaint *why)
{
    check->errors++;
    fprintf(stderr, "%s:%zu: %s\n", check->script->file, line, why->words);
}

/* A length that is lent to no command says nothing, so something is missing. */
static void check_used(struct check *check, size_t *lent_at)
{
    struct complaint why;

    if (*lent_at != 0) {
        complain(&why, "no command uses this length");
        report(check, *lent_at, &why);
        *lent_at = 0;
    }
}

static void check_all_used(struct check *check)
{
    check_used(check, &check->size_at);
    check_used(check, &check->room_at);
}

/* A command that sets a length, or one that takes those that were set. */
static void check_lent(struct check *check, enum command_kind kind, size_t line)
{
    if (command_lends(kind)) {
        size_t *lent_at = kind == COMMAND_SIZE ? &check->size_at : &check->room_at;

        check_used(check, lent_at);
        *lent_at = line;
    } else if (command_takes_lent(kind)) {
        check->size_at = 0;
        check->room_at = 0;
    }
}

static bool check_case(struct check *check, const struct command *command, struct complaint *why)
{
    struct ids *ids = check->ids;

    check_all_used(check);
    if (ids->any && command->number <= ids->last) {
        return complain(why, "case ids ascend, and %lu follows %lu", (unsigned long)command->number,
                        (unsigned long)ids->last);
    }
    *ids = (struct ids){.any = true, .last = command->number};
    check->script->cases++;
    return true;
}

static bool check_command(struct check *check, const struct line *line, struct complaint *why)
{
    struct text rest = line->text;
    struct command command;

    check->commanded = true;
    check->bridge = check->bridge || text_is(text_word(&rest, ""), "bridge");
    check->unread = !command_read(line->text, (uint32_t)line->number, &command, why);
    if (check->unread) {
        return false;
    }
    check->kind = command.kind;
    check->script->commands += command_calls(command.kind) ? 1 : 0;
    if (command.kind == COMMAND_CASE) {
        return check_case(check, &command, why);
    }
    check_lent(check, command.kind, line->number);
    if (command_needs_bridge(command.kind) && !check->bridge) {
        return complain(why, "no bridge is set up before this line");
    }
    return true;
}

static bool check_line(struct check *check, const struct line *line, struct complaint *why)
{
    struct expected expected;

    if (!line->expected) {
        return check_command(check, line, why);
    }
    if (!check->commanded) {
        return complain(why, "an expected answer before any command");
    }
    check->script->expected++;
    return check->unread || expected_read(line->text, check->kind, &expected, why);
}

static void check_end(struct check *check, size_t lines)
{
    struct script *script = check->script;
    size_t last = lines > 0 ? lines : 1;
    struct complaint why;

    check_all_used(check);
    if (script->size > 0 && script->text[script->size - 1] != '\n') {
        complain(&why, "the last line has no end of line: the file may be cut");
        report(check, last, &why);
    }
    if (script->commands == 0 && check->errors == 0) {
        complain(&why, "the file has no command");
        report(check, last, &why);
    }
}

size_t script_check(struct script *script, struct ids *ids)
{
    struct place place = SCRIPT_START;
    struct check check = {.script = script, .ids = ids};
    struct complaint why;
    struct line line = {.number = place.number};

    for (; take_line(script, &place, &line.text); line.number = place.number) {
        bool good = check_text(line.text, &why);

        if (!good || (cut_line(&line) && !check_line(&check, &line, &why))) {
            report(&check, line.number, &why);
        }
    }
    check_end(&check, place.number - 1);
    return check.errors;
}
