/* Requests by the names of objects, for programs that call the archive; host/message.h has the message form. */
#ifndef REQUESTS_H
#define REQUESTS_H

#include <stdio.h>
#include <stdlib.h>
#include <string.h>

#include "message.h"
#include "refbridge.h"

/* Ends the program with a reason where a condition does not hold. */
#define REQUIRE(condition, ...)                                                                                        \
    do {                                                                                                               \
        if (!(condition)) {                                                                                            \
            fprintf(stderr, "%s:%d: ", __FILE__, __LINE__);                                                            \
            fprintf(stderr, __VA_ARGS__);                                                                              \
            fprintf(stderr, "\n");                                                                                     \
            exit(1);                                                                                                   \
        }                                                                                                              \
    } while (0)

/* An index as two arguments: its sub-ids and how many they are. */
#define INDEX(...) (const uint32_t[]){__VA_ARGS__}, sizeof((const uint32_t[]){__VA_ARGS__}) / sizeof(uint32_t)

static inline const struct object *object_called(const char *word)
{
    const struct object *object = object_by_name((struct text){word, word + strlen(word)});

    REQUIRE(object != NULL, "no object has the name %s", word);
    return object;
}

/* The name of an instance, or of anything else that starts with an object's or a table's name. */
static inline struct name name_of(const char *object, const uint32_t *index, size_t count)
{
    struct name name;

    name.count = object_instance(object_called(object), index, count, name.sub);
    return name;
}

static inline void ask_for(struct octets *request, const struct name *name)
{
    REQUIRE(request_add(request, name, NULL), "a request is too long");
}

/* Adds a string, whatever type the object's values have. */
static inline void put_string(struct octets *request, const char *object, const uint32_t *index, size_t count,
                              const void *octets, size_t length)
{
    struct name name = name_of(object, index, count);
    struct value value = {.tag = RB_TAG_STRING, .count = length};

    memcpy(value.octets, octets, length);
    REQUIRE(request_add(request, &name, &value), "a request is too long");
}

/* Adds a number of the type that the object's values have. */
static inline void put_number(struct octets *request, const char *object, const uint32_t *index, size_t count,
                              uint32_t number)
{
    struct name name = name_of(object, index, count);
    struct value value = {.tag = object_tag(object_called(object)), .count = 4};

    for (int i = 0; i < 4; i++) {
        value.octets[i] = (uint8_t)(number >> (24 - 8 * i));
    }
    REQUIRE(request_add(request, &name, &value), "a request is too long");
}

/* The one binding of an answer to a get or a get-next. */
static inline struct binding only_binding(const uint8_t *room, size_t count)
{
    struct answer answer;
    struct binding binding;

    REQUIRE(answer_read(&answer, room, count) && answer.status == RB_NO_ERROR && answer.bindings == 1,
            "an answer of %zu octets that has not one binding", count);
    answer_binding(&answer, &binding);
    return binding;
}

#endif
