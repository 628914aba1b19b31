#include "reply.h"

#include <stdbool.h>

#include "answer.h"
#include "refbridge.h"

enum { STATUSES = 19, PRIORITIES = 8, VLAN_MAX = 4094, OCTET_MAX = 255 };

/* The three timers, by the last sub-ids of their names. */
enum { MAX_AGE = 12, HELLO_TIME = 13, FORWARD_DELAY = 14, TIMER_SUBS = 15 };

/* The state that removes a port pair, and where under the bridge a pair's name has its column. */
enum { PAIR_INVALID = 3, PAIR_COLUMN = 3 };

#define SECOND 100u /* in hundredths */

static uint32_t number_of(const struct value *value)
{
    return (uint32_t)value->octets[0] << 24 | (uint32_t)value->octets[1] << 16 | (uint32_t)value->octets[2] << 8 |
           value->octets[3];
}

static bool is_port(uint32_t number, uint32_t ports)
{
    return number >= 1 && number <= ports;
}

/* True for an index that a bridge with that many ports can have for the object. */
static bool is_index(const struct object *object, const uint32_t *index, size_t count, uint32_t ports)
{
    if (count != object_index_subs(object)) {
        return false;
    }
    switch (object->index) {
    case BY_PORT:
        return is_port(index[0], ports);
    case BY_PORT_AND_PRIORITY:
        return is_port(index[0], ports) && index[1] < PRIORITIES;
    case BY_VLAN:
        return index[0] >= 1 && index[0] <= VLAN_MAX;
    case BY_PORT_PAIR:
        return is_port(index[0], ports) && is_port(index[1], ports) && index[0] < index[1];
    case BY_STATIC:
        for (size_t i = 0; i + 1 < count; i++) {
            if (index[i] > OCTET_MAX) {
                return false;
            }
        }
        return index[count - 1] <= ports;
    default:
        return index[0] == 0;
    }
}

/* True where the object can have the value on a bridge of this kind: its type, and its number or length. */
static bool is_value(const struct object *object, const struct value *value, struct bridge_kind kind)
{
    uint32_t size = value->tag == RB_TAG_STRING ? (uint32_t)value->count : number_of(value);

    return value->tag == object_tag(object) && object_takes(object, kind.edition, kind.device, size);
}

/* The object whose name is a prefix of this one, of those that the bridge's device has, or NULL. */
static const struct object *object_of(const struct binding *binding, struct bridge_kind kind)
{
    const struct object *object = name_object(&binding->name);

    return object != NULL && object_is_of(object, kind.device) ? object : NULL;
}

/* True for an instance of the object table with a value that it can have. */
static bool is_instance(const struct binding *binding, struct bridge_kind kind)
{
    const struct object *object = object_of(binding, kind);
    size_t before;

    if (object == NULL) {
        return false;
    }
    before = BRIDGE_SUBS + (size_t)object->count;
    return is_index(object, binding->name.sub + before, binding->name.count - before, kind.ports) &&
           is_value(object, &binding->value, kind);
}

static bool is_exception(uint8_t tag)
{
    return tag == RB_TAG_NO_SUCH_OBJECT || tag == RB_TAG_NO_SUCH_INSTANCE || tag == RB_TAG_END_OF_MIB_VIEW;
}

static const char *get_flaw(const struct binding *asked, const struct binding *got, struct bridge_kind kind)
{
    bool known = object_of(asked, kind) != NULL;

    if (name_order(&got->name, &asked->name) != 0) {
        return "a get is answered with another name";
    }
    switch (got->value.tag) {
    case RB_TAG_NO_SUCH_OBJECT:
        return known ? "noSuchObject for an object" : NULL;
    case RB_TAG_NO_SUCH_INSTANCE:
        return known ? NULL : "noSuchInstance without an object";
    case RB_TAG_END_OF_MIB_VIEW:
        return "a get comes to the end of the view";
    default:
        return NULL;
    }
}

static const char *next_flaw(const struct binding *asked, const struct binding *got)
{
    int order = name_order(&got->name, &asked->name);

    if (got->value.tag == RB_TAG_END_OF_MIB_VIEW) {
        return order == 0 ? NULL : "the end of the view has another name";
    }
    return order > 0 && !is_exception(got->value.tag) ? NULL : "get-next gives no value, or a name that is not above";
}

static const char *gets_flaw(struct answer request, struct answer answer, struct bridge_kind kind)
{
    struct binding asked, got;

    if (answer.status > RB_TOO_BIG) {
        return "a get is answered with a fault";
    }
    while (answer_binding(&answer, &got) && answer_binding(&request, &asked)) {
        const char *flaw = request.kind == RB_GET ? get_flaw(&asked, &got, kind) : next_flaw(&asked, &got);
        if (flaw != NULL) {
            return flaw;
        }
        if (!is_exception(got.value.tag) && !is_instance(&got, kind)) {
            return "a value that the object cannot have, or no instance of it";
        }
    }
    return NULL;
}

/* The rules of the timers, in hundredths; a set that does not bind all three is not judged here. */
static bool timers_agree(const uint32_t timers[TIMER_SUBS])
{
    if (timers[MAX_AGE] == 0 || timers[HELLO_TIME] == 0 || timers[FORWARD_DELAY] == 0) {
        return true;
    }
    return 2 * (timers[FORWARD_DELAY] - SECOND) >= timers[MAX_AGE] &&
           timers[MAX_AGE] >= 2 * (timers[HELLO_TIME] + SECOND);
}

/* True where the set also binds the bridge number of the pair that this binding removes: the pair stands and goes, or is
 * absent and not made, and neither takes a number. */
static bool numbers_what_goes(struct answer request, const struct binding *binding)
{
    struct name number = binding->name;
    struct binding other;

    if (name_object(&binding->name)->source != FROM_PAIR_STATE || number_of(&binding->value) != PAIR_INVALID) {
        return false;
    }
    number.sub[BRIDGE_SUBS + PAIR_COLUMN]--; /* the column before the state */
    while (answer_binding(&request, &other)) {
        if (name_order(&other.name, &number) == 0) {
            return true;
        }
    }
    return false;
}

/* A set without a fault writes objects that can be written, with values that they can have, timers that belong together,
 * and no number of a pair that it removes. */
static const char *accepted_flaw(struct answer request, struct bridge_kind kind)
{
    const struct answer whole = request;
    uint32_t timers[TIMER_SUBS] = {0};
    struct binding binding;

    while (answer_binding(&request, &binding)) {
        const struct object *object = name_object(&binding.name);

        if (!is_instance(&binding, kind) || object->access != WRITABLE) {
            return "a set is accepted that writes what cannot be written";
        }
        if (numbers_what_goes(whole, &binding)) {
            return "a set is accepted that removes a port pair and writes its bridge number";
        }
        if (object->group == BRIDGE_TIMERS) {
            timers[object->sub[1]] = number_of(&binding.value);
        }
    }
    return timers_agree(timers) ? NULL : "a set is accepted whose timers do not belong together";
}

const char *reply_flaw(const struct octets *request, const uint8_t *room, size_t count, struct bridge_kind kind)
{
    struct answer asked, answer;
    const char *flaw;

    if (!message_read(&asked, request->at, request->count)) {
        return "a request that cannot be read is answered";
    }
    if (!answer_read(&answer, room, count)) {
        return "an answer that cannot be read";
    }
    flaw = answer_flaw(&answer, request);
    if (flaw != NULL) {
        return flaw;
    }
    if (asked.kind != RB_SET) {
        return gets_flaw(asked, answer, kind);
    }
    return answer.status == RB_NO_ERROR ? accepted_flaw(asked, kind) : NULL;
}

static void note(size_t outcome)
{
    uint8_t *counter = &outcomes[outcome % OUTCOMES];

    *counter += *counter < UINT8_MAX;
}

/* Which object a name is of, roughly: the first sub-ids below the bridge. */
static uint32_t object_hash(const struct name *name)
{
    uint32_t hash = 0;

    for (size_t i = BRIDGE_SUBS; i < name->count && i < BRIDGE_SUBS + OBJECT_SUBS_MAX; i++) {
        hash = hash * 31 + (name->sub[i] & OCTET_MAX);
    }
    return hash;
}

void reply_outcomes(const struct octets *request, const uint8_t *room, size_t count)
{
    uint8_t kind = request_kind(request) & 3, status = room[STATUS_AT] % STATUSES, index = room[INDEX_AT] % 17;
    size_t bindings = 0;
    struct binding binding;
    struct answer answer;

    note(16 + (size_t)(kind * STATUSES + status) * 17 + index);
    if (!answer_read(&answer, room, count)) {
        return;
    }
    while (answer_binding(&answer, &binding)) {
        bindings++;
        if (status == RB_NO_ERROR || bindings == index) {
            note(1400 + (object_hash(&binding.name) * 64 + binding.value.tag + status * 7u + kind) % 2600);
        }
    }
}
