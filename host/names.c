#include "names.h"

#include <inttypes.h>
#include <stdio.h>
#include <string.h>

static bool add_sub(struct name *name, uint32_t sub, struct complaint *why)
{
    if (name->count == NAME_SUBS_MAX) {
        return complain(why, "a name has at most %d sub-ids", NAME_SUBS_MAX);
    }
    name->sub[name->count++] = sub;
    return true;
}

/* Adds the sub-ids of a text such as 1.3.6. */
static bool add_numbers(struct text numbers, struct name *name, struct complaint *why)
{
    struct text rest = numbers;

    for (;;) {
        struct text word = text_word(&rest, ".");
        uint64_t sub;

        if (!text_number(word, UINT32_MAX, &sub)) {
            return complain(why, "a sub-id is no number below 2^32: '%.*s'", text_quoted(numbers), numbers.at);
        }
        if (!add_sub(name, (uint32_t)sub, why)) {
            return false;
        }
        if (rest.at == rest.end) {
            return true;
        }
        rest.at++; /* the dot */
    }
}

static bool add_object(struct text word, struct name *name, struct complaint *why)
{
    struct text rest = word;
    struct text own = text_word(&rest, ".");
    const struct object *object = object_by_name(own);

    if (object == NULL) {
        return complain(why, "no object has the name '%.*s'", text_quoted(own), own.at);
    }
    memcpy(name->sub, bridge_name, sizeof bridge_name);
    name->count = BRIDGE_SUBS;
    for (size_t i = 0; i < object->count; i++) {
        name->sub[name->count++] = object->sub[i];
    }
    if (rest.at == rest.end) {
        return true;
    }
    rest.at++; /* the dot */
    return add_numbers(rest, name, why);
}

/* True where the name starts with 1.3.6: a name without a leading dot that does not is most likely cut. */
static bool is_internet(const struct name *name)
{
    return name->count >= 3 && name->sub[0] == 1 && name->sub[1] == 3 && name->sub[2] == 6;
}

static bool is_digit(char c)
{
    return c >= '0' && c <= '9';
}

static bool read_word(struct text word, struct name *name, struct complaint *why)
{
    struct text numbers = word;

    name->count = 0;
    if (*word.at == '.') {
        numbers.at++;
        if (!add_numbers(numbers, name, why)) {
            return false;
        }
    } else if (is_digit(*word.at)) {
        if (!add_numbers(word, name, why)) {
            return false;
        }
        if (!is_internet(name)) {
            return complain(why, "a name by numbers starts with 1.3.6 or with a dot: '%.*s'", text_quoted(word),
                            word.at);
        }
    } else if (!add_object(word, name, why)) {
        return false;
    }
    if (name->count < NAME_SUBS_MIN) {
        return complain(why, "a name has at least %d sub-ids", NAME_SUBS_MIN);
    }
    return true;
}

bool name_take(struct text *text, const char *stops, struct name *name, struct complaint *why)
{
    struct text word;

    if (text_is_done(text)) {
        return complain(why, "a name is missing");
    }
    word = text_word(text, stops);
    return word.at == word.end ? complain(why, "a name is missing") : read_word(word, name, why);
}

int name_order(const struct name *a, const struct name *b)
{
    for (size_t i = 0; i < a->count && i < b->count; i++) {
        if (a->sub[i] != b->sub[i]) {
            return a->sub[i] < b->sub[i] ? -1 : 1;
        }
    }
    return a->count == b->count ? 0 : a->count < b->count ? -1 : 1;
}

bool name_is_under(const struct name *name, const struct name *root)
{
    struct name start = *name;

    if (name->count <= root->count) {
        return false;
    }
    start.count = root->count;
    return name_order(&start, root) == 0;
}

const struct object *name_object(const struct name *name)
{
    return object_by_number(name->sub, name->count);
}

void name_print(FILE *out, const struct name *name)
{
    const struct object *object = name_object(name);
    size_t from = 0;

    if (object != NULL) {
        fputs(object->name, out);
        from = BRIDGE_SUBS + (size_t)object->count;
    } else if (is_internet(name)) {
        putc('1', out);
        from = 1;
    }
    for (size_t i = from; i < name->count; i++) {
        fprintf(out, ".%" PRIu32, name->sub[i]);
    }
}
