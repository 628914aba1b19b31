/* The message form: requests written, requests and answers read. */
#ifndef HOST_MESSAGE_H
#define HOST_MESSAGE_H

#include "names.h"
#include "text.h"
#include "values.h"

/* Where a message's parts stand: fields 01, 02 and 03 are its head, of which four parts vary. */
#define HEAD_SIZE 16u
#define KIND_AT 3u
#define ID_AT 7u
#define ID_SIZE 4u
#define STATUS_AT 14u
#define INDEX_AT 15u

struct binding {
    struct name name;
    struct value value;
};

/* An answer, or a request, that was read, and the place of its next binding. */
struct answer {
    const uint8_t *octets;
    size_t count;
    size_t place;
    size_t bindings;
    uint32_t id;
    uint8_t kind;
    uint8_t status;
    uint8_t index;
};

/* Starts a request without bindings. */
void request_start(struct octets *request, uint8_t kind, uint32_t id);

/* Adds a binding; no value is null, as get and get-next carry it. False where the octets have no room left. */
bool request_add(struct octets *request, const struct name *name, const struct value *value);

/* The kind of a request that was answered. */
uint8_t request_kind(const struct octets *request);

/* Reads the head of a message and looks through all its bindings. False where the octets have not the form of a request
 * or of a response; how many bindings there are, and whether a request's head is right, is not judged. */
bool message_read(struct answer *message, const uint8_t *octets, size_t count);

/* The same for a response alone. */
bool answer_read(struct answer *answer, const uint8_t *octets, size_t count);

/* Reads the next binding; false after the last. */
bool answer_binding(struct answer *answer, struct binding *binding);

/* What of an answer does not go with its request, in words, or NULL. */
const char *answer_flaw(const struct answer *answer, const struct octets *request);

#endif
