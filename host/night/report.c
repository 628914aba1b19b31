#define _POSIX_C_SOURCE 200809L
#include "report.h"

#include <stdlib.h>
#include <string.h>

#include "message.h"
#include "outcome.h"

const char *report_class(const struct record *record, size_t place)
{
    switch (record->cases[place].state) {
    case RB_PASSED:
        return "passed";
    case RB_FAILED:
        return "failed";
    case RB_NOT_RUN:
        return "not run";
    default:
        return "broken";
    }
}

struct text report_words(const char *words)
{
    return (struct text){words, words + strlen(words)};
}

bool report_is_complete(const rb_report *report)
{
    return report->not_run == 0;
}

/* The word's value in the evidence: the word after it. */
static bool find(struct text evidence, const char *word, struct text *value)
{
    while (evidence.at < evidence.end) {
        if (text_is(text_word(&evidence, ""), word)) {
            *value = text_word(&evidence, "");
            return true;
        }
    }
    return false;
}

/* True for a word that octets in hex follow in the evidence. */
static bool is_hex_word(struct text word)
{
    return text_is(word, "request") || text_is(word, "reference") || text_is(word, "switch") ||
           text_is(word, "datagram");
}

/* Evidence tells its words for people after its octets in hex. */
static struct text words_of(struct text evidence)
{
    struct text rest = evidence;

    while (is_hex_word(text_word(&rest, ""))) {
        text_word(&rest, "");
        evidence = rest;
    }
    text_skip_blanks(&evidence);
    return evidence;
}

struct text report_not_run(const struct record *record)
{
    return record->reason.at != NULL
               ? record->reason
               : report_words("what a broken case or an earlier run left is needed, or it was not reached");
}

char *report_reason(const struct record *record, size_t place)
{
    struct text words = record->history[place].evidence;
    char *said = NULL;
    size_t size;
    FILE *out = open_memstream(&said, &size);

    if (out == NULL) {
        return NULL;
    }
    if (record->cases[place].state == RB_NOT_RUN) {
        words = report_not_run(record);
    } else if (record->cases[place].state == RB_RUNNING) {
        words = report_words("the run is in this case, or was interrupted in it");
    } else {
        words = words_of(words);
    }
    if (record->cases[place].state == RB_FAILED) {
        fputs("the switch answers something else ", out);
    }
    fprintf(out, "%.*s", (int)(words.end - words.at), words.at);
    fclose(out);
    return said;
}

static void print_bindings(FILE *out, struct answer answer)
{
    struct binding binding;

    while (answer_binding(&answer, &binding)) {
        putc('\n', out);
        name_print(out, &binding.name);
        fputs(" = ", out);
        value_print(out, &binding.value, name_object(&binding.name), RB_PORTS_MAX);
    }
}

char *report_message(struct text evidence, const char *word)
{
    struct octets octets = {.count = 0};
    struct complaint why;
    struct outcome outcome = {.kind = OUTCOME_ANSWERED};
    struct text hex;
    char *said = NULL;
    size_t size;
    FILE *out;

    if (evidence.at == NULL || !find(evidence, word, &hex) || !text_hex(hex, &octets, &why)) {
        return NULL;
    }
    out = open_memstream(&said, &size);
    if (out == NULL) {
        return NULL;
    }
    if (answer_read(&outcome.answer, octets.at, octets.count)) {
        outcome_print(out, &outcome);
        print_bindings(out, outcome.answer);
    } else {
        octets_print(out, octets.at, octets.count);
    }
    fclose(out);
    return said;
}

/* The octets of the character at `at`, of two to four octets in UTF-8, that may stand in XML; 0 where there is none. */
static size_t character_size(const unsigned char *at, size_t left)
{
    size_t size = at[0] >= 0xF0 ? 4 : at[0] >= 0xE0 ? 3 : 2;
    static const uint32_t least[] = {0, 0, 0x80, 0x800, 0x10000};
    uint32_t code = at[0] & (0xFFu >> (size + 1));

    if (at[0] < 0xC0 || at[0] >= 0xF8 || left < size) {
        return 0;
    }
    for (size_t i = 1; i < size; i++) {
        if ((at[i] & 0xC0) != 0x80) {
            return 0;
        }
        code = code << 6 | (at[i] & 0x3Fu);
    }
    if (code < least[size] || code > 0x10FFFF || (code >= 0xD800 && code < 0xE000) || (code & 0xFFFE) == 0xFFFE) {
        return 0;
    }
    return size;
}

/* Prints the character at `at`, or the sign for what is none, and returns how many octets it took. */
static size_t print_character(FILE *out, const char *at, const char *end)
{
    size_t size = character_size((const unsigned char *)at, (size_t)(end - at));

    if (size == 0) {
        fputs("\xEF\xBF\xBD", out); /* U+FFFD */
        return 1;
    }
    fwrite(at, 1, size, out);
    return size;
}

void report_escaped(FILE *out, struct text text)
{
    for (const char *c = text.at; c < text.end; c++) {
        if ((unsigned char)*c >= 0x80) {
            c += print_character(out, c, text.end) - 1;
            continue;
        }
        switch (*c) {
        case '<':
            fputs("&lt;", out);
            break;
        case '>':
            fputs("&gt;", out);
            break;
        case '&':
            fputs("&amp;", out);
            break;
        case '"':
            fputs("&quot;", out);
            break;
        case '\'':
            fputs("&#39;", out);
            break;
        default:
            putc((unsigned char)*c < ' ' && *c != '\n' ? ' ' : *c, out);
        }
    }
}
