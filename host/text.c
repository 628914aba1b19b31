#include "text.h"

#include <stdarg.h>
#include <stdio.h>
#include <string.h>

bool complain(struct complaint *why, const char *format, ...)
{
    va_list arguments;

    va_start(arguments, format);
    vsnprintf(why->words, sizeof why->words, format, arguments);
    va_end(arguments);
    return false;
}

int text_quoted(struct text text)
{
    size_t length = (size_t)(text.end - text.at);

    return (int)(length < 60 ? length : 60);
}

static bool is_blank(char c)
{
    return c == ' ' || c == '\t';
}

void text_skip_blanks(struct text *text)
{
    while (text->at < text->end && is_blank(*text->at)) {
        text->at++;
    }
}

bool text_is_done(struct text *text)
{
    text_skip_blanks(text);
    return text->at == text->end || *text->at == '#';
}

struct text text_run(struct text *text, const char *stops)
{
    struct text run = {text->at, text->at};

    while (run.end < text->end && !is_blank(*run.end) && strchr(stops, *run.end) == NULL) {
        run.end++;
    }
    text->at = run.end;
    return run;
}

struct text text_word(struct text *text, const char *stops)
{
    text_skip_blanks(text);
    return text_run(text, stops);
}

bool text_is(struct text word, const char *literal)
{
    size_t length = (size_t)(word.end - word.at);

    return length == strlen(literal) && memcmp(word.at, literal, length) == 0;
}

bool text_number(struct text word, uint64_t most, uint64_t *number)
{
    uint64_t n = 0;

    if (word.at == word.end) {
        return false;
    }
    for (const char *c = word.at; c < word.end; c++) {
        if (*c < '0' || *c > '9') {
            return false;
        }
        n = n * 10 + (uint64_t)(*c - '0');
        if (n > most) {
            return false;
        }
    }
    *number = n;
    return true;
}

static int hex_digit(char c)
{
    if (c >= '0' && c <= '9') {
        return c - '0';
    }
    if (c >= 'a' && c <= 'f') {
        return c - 'a' + 10;
    }
    return c >= 'A' && c <= 'F' ? c - 'A' + 10 : -1;
}

bool text_hex(struct text word, struct octets *octets, struct complaint *why)
{
    if ((word.end - word.at) % 2 != 0) {
        return complain(why, "an odd number of hex digits: '%.*s'", text_quoted(word), word.at);
    }
    for (const char *c = word.at; c < word.end; c += 2) {
        int high = hex_digit(c[0]), low = hex_digit(c[1]);

        if (high < 0 || low < 0) {
            return complain(why, "not hex digits: '%.*s'", text_quoted(word), word.at);
        }
        if (octets->count == OCTETS_MAX) {
            return complain(why, "over %u octets", OCTETS_MAX);
        }
        octets->at[octets->count++] = (uint8_t)(high * 16 + low);
    }
    return true;
}

bool text_hex_words(struct text *text, struct octets *octets, struct complaint *why)
{
    while (!text_is_done(text)) {
        if (!text_hex(text_word(text, ""), octets, why)) {
            return false;
        }
    }
    return true;
}

bool text_take_number(struct text *text, const char *what, uint64_t most, uint64_t *number, struct complaint *why)
{
    struct text word;

    if (text_is_done(text)) {
        return complain(why, "%s is missing", what);
    }
    word = text_word(text, "");
    if (!text_number(word, most, number)) {
        return complain(why, "%s is no number from 0 to %llu: '%.*s'", what, (unsigned long long)most,
                        text_quoted(word), word.at);
    }
    return true;
}
