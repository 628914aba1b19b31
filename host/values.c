#include "values.h"

#include <inttypes.h>
#include <stdio.h>
#include <string.h>

#include "refbridge.h"

#define PORT_OCTETS 8u

static const struct {
    const char *word;
    uint8_t tag;
} exceptions[] = {
    {"noSuchObject", RB_TAG_NO_SUCH_OBJECT},
    {"noSuchInstance", RB_TAG_NO_SUCH_INSTANCE},
    {"endOfMibView", RB_TAG_END_OF_MIB_VIEW},
};

#define EXCEPTIONS (sizeof exceptions / sizeof exceptions[0])

uint8_t value_exception(struct text word)
{
    for (size_t i = 0; i < EXCEPTIONS; i++) {
        if (text_is(word, exceptions[i].word)) {
            return exceptions[i].tag;
        }
    }
    return 0;
}

static void put_number(struct value *value, uint8_t tag, uint32_t number)
{
    value->tag = tag;
    value->count = 4;
    for (size_t i = 0; i < 4; i++) {
        value->octets[i] = (uint8_t)(number >> (24 - 8 * i));
    }
}

static uint32_t get_number(const struct value *value)
{
    return (uint32_t)value->octets[0] << 24 | (uint32_t)value->octets[1] << 16 | (uint32_t)value->octets[2] << 8 |
           value->octets[3];
}

static bool read_integer(struct text *text, struct value *value, struct complaint *why)
{
    struct text word = text_run(text, "");
    bool negative = word.at < word.end && *word.at == '-';
    struct text digits = {word.at + (negative ? 1 : 0), word.end};
    uint64_t size;

    if (!text_number(digits, negative ? 2147483648u : 2147483647u, &size)) {
        return complain(why, "no integer from -2147483648 to 2147483647: '%.*s'", text_quoted(word), word.at);
    }
    put_number(value, RB_TAG_INTEGER, (uint32_t)(negative ? 4294967296u - size : size));
    return true;
}

static bool read_number(struct text *text, uint8_t tag, struct value *value, struct complaint *why)
{
    struct text word = text_run(text, "");
    uint64_t number;

    if (!text_number(word, UINT32_MAX, &number)) {
        return complain(why, "no number from 0 to 4294967295: '%.*s'", text_quoted(word), word.at);
    }
    put_number(value, tag, (uint32_t)number);
    return true;
}

static bool read_unsigned(struct text *text, struct value *value, struct complaint *why)
{
    return read_number(text, RB_TAG_UNSIGNED, value, why);
}

static bool read_counter(struct text *text, struct value *value, struct complaint *why)
{
    return read_number(text, RB_TAG_COUNTER, value, why);
}

static bool put_string(struct value *value, const void *octets, size_t count, struct complaint *why)
{
    if (count > STRING_MAX) {
        return complain(why, "a string has at most %u octets", STRING_MAX);
    }
    value->tag = RB_TAG_STRING;
    value->count = count;
    memcpy(value->octets, octets, count);
    return true;
}

static bool read_quoted(struct text *text, struct value *value, struct complaint *why)
{
    const char *start = text->at + 1;
    const char *quote = memchr(start, '"', (size_t)(text->end - start));

    if (quote == NULL) {
        return complain(why, "the closing quote is missing");
    }
    text->at = quote + 1;
    if (text->at < text->end && *text->at != ' ' && *text->at != '\t') {
        return complain(why, "no blank after the closing quote");
    }
    return put_string(value, start, (size_t)(quote - start), why);
}

/* In quotes a string ends at the next quote, otherwise at a blank. A string that holds a quote is written in hex. */
static bool read_string(struct text *text, struct value *value, struct complaint *why)
{
    struct text word;

    if (text->at < text->end && *text->at == '"') {
        return read_quoted(text, value, why);
    }
    word = text_run(text, "\"");
    if (text->at < text->end && *text->at == '"') {
        return complain(why, "a quote inside a string");
    }
    return put_string(value, word.at, (size_t)(word.end - word.at), why);
}

static bool read_hex(struct text *text, struct value *value, struct complaint *why)
{
    struct octets octets = {.count = 0};

    return text_hex(text_run(text, ""), &octets, why) && put_string(value, octets.at, octets.count, why);
}

/* Adds the ports of a part such as 3 or 5-8. */
static bool add_ports(struct text part, struct value *value, struct complaint *why)
{
    struct text rest = part;
    uint64_t low = 0, high = 0;
    bool readable = text_number(text_run(&rest, "-"), RB_PORTS_MAX, &low);

    if (rest.at == rest.end) {
        high = low;
    } else {
        rest.at++; /* the dash */
        readable = readable && text_number(rest, RB_PORTS_MAX, &high);
    }
    if (!readable || low < 1 || low > high) {
        return complain(why, "no port from 1 to %u, nor ports LOW-HIGH: '%.*s'", RB_PORTS_MAX, text_quoted(part),
                        part.at);
    }
    for (uint64_t port = low; port <= high; port++) {
        value->octets[(port - 1) / 8] |= (uint8_t)(0x80u >> (port - 1) % 8);
    }
    if (value->count < (high + 7) / 8) {
        value->count = (high + 7) / 8;
    }
    return true;
}

/* A list of ports becomes the fewest octets that hold it; all 8 octets are kept, for comparing. */
static bool read_ports(struct text *text, struct value *value, struct complaint *why)
{
    struct text rest = text_run(text, "");

    value->tag = RB_TAG_STRING;
    value->ports = true;
    value->count = 0;
    memset(value->octets, 0, PORT_OCTETS);
    if (text_is(rest, "none")) {
        return true;
    }
    for (;;) {
        if (!add_ports(text_run(&rest, ","), value, why)) {
            return false;
        }
        if (rest.at == rest.end) {
            return true;
        }
        rest.at++; /* the comma */
    }
}

static const struct {
    const char *word;
    bool (*read)(struct text *text, struct value *value, struct complaint *why);
} types[] = {
    {"integer", read_integer}, {"unsigned", read_unsigned}, {"counter", read_counter},
    {"string", read_string},   {"hex", read_hex},           {"ports", read_ports},
};

#define TYPES (sizeof types / sizeof types[0])

bool value_read(struct text *text, struct value *value, struct complaint *why)
{
    struct text type = text_word(text, ":");

    value->ports = false;
    if (text->at == text->end || *text->at != ':') {
        return complain(why, "a value is written TYPE:VALUE: '%.*s'", text_quoted(type), type.at);
    }
    text->at++; /* the colon */
    for (size_t i = 0; i < TYPES; i++) {
        if (text_is(type, types[i].word)) {
            return types[i].read(text, value, why);
        }
    }
    return complain(why, "no type of value: '%.*s'", text_quoted(type), type.at);
}

bool value_read_answered(struct text *text, struct value *value, struct complaint *why)
{
    struct text rest = *text;
    uint8_t tag = value_exception(text_word(&rest, ""));

    if (tag == 0) {
        return value_read(text, value, why);
    }
    *text = rest;
    value->tag = tag;
    value->ports = false;
    value->count = 0;
    return true;
}

/* True where a string is a port set as a bridge with that many ports answers it. */
static bool is_port_set(const struct value *value, uint32_t ports)
{
    if (value->tag != RB_TAG_STRING || ports < 1 || ports > RB_PORTS_MAX || value->count != (ports + 7) / 8) {
        return false;
    }
    return ports % 8 == 0 || (value->octets[value->count - 1] & (0xFFu >> ports % 8)) == 0;
}

bool value_is(const struct value *got, const struct value *expected, uint32_t ports)
{
    if (expected->ports) {
        return is_port_set(got, ports) && expected->count <= got->count &&
               memcmp(got->octets, expected->octets, got->count) == 0;
    }
    return got->tag == expected->tag && got->count == expected->count &&
           memcmp(got->octets, expected->octets, got->count) == 0;
}

static bool is_text(const struct value *value)
{
    for (size_t i = 0; i < value->count; i++) {
        if (value->octets[i] < ' ' || value->octets[i] > '~' || value->octets[i] == '"') {
            return false;
        }
    }
    return true;
}

static bool has_port(const struct value *value, size_t port)
{
    size_t at = (port - 1) / 8;

    return at < value->count && (value->octets[at] & 0x80u >> (port - 1) % 8) != 0;
}

void value_print_ports(FILE *out, const struct value *value)
{
    const char *before = "";

    fputs("ports:", out);
    for (size_t port = 1; port <= RB_PORTS_MAX; port++) {
        size_t low = port;

        if (!has_port(value, port)) {
            continue;
        }
        while (port < RB_PORTS_MAX && has_port(value, port + 1)) {
            port++;
        }
        fprintf(out, "%s%zu", before, low);
        if (port > low) {
            fprintf(out, "-%zu", port);
        }
        before = ",";
    }
    if (*before == '\0') {
        fputs("none", out);
    }
}

static void print_string(FILE *out, const struct value *value, const struct object *object, uint32_t ports)
{
    if (object != NULL && object->type == TYPE_PORTS && is_port_set(value, ports)) {
        value_print_ports(out, value);
    } else if (object != NULL && object->type == TYPE_TEXT && is_text(value)) {
        fprintf(out, "string:\"%.*s\"", (int)value->count, (const char *)value->octets);
    } else {
        fputs("hex:", out);
        for (size_t i = 0; i < value->count; i++) {
            fprintf(out, "%02X", value->octets[i]);
        }
    }
}

void value_print(FILE *out, const struct value *value, const struct object *object, uint32_t ports)
{
    switch (value->tag) {
    case RB_TAG_INTEGER:
        fprintf(out, "integer:%" PRId32, (int32_t)get_number(value));
        break;
    case RB_TAG_UNSIGNED:
        fprintf(out, "unsigned:%" PRIu32, get_number(value));
        break;
    case RB_TAG_COUNTER:
        fprintf(out, "counter:%" PRIu32, get_number(value));
        break;
    case RB_TAG_STRING:
        print_string(out, value, object, ports);
        break;
    default:
        for (size_t i = 0; i < EXCEPTIONS; i++) {
            if (exceptions[i].tag == value->tag) {
                fputs(exceptions[i].word, out);
            }
        }
    }
}
