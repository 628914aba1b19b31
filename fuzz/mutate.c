/* The mutator: changes an input by its steps and by the fields of its requests, so that most lengths stay right and
 * inputs reach deep without coverage of the archive. It knows no object: names and values come from the seeds, and go
 * from one request to another. Some changes break the form on purpose. */
#include <string.h>

#include "answer.h"
#include "dice.h"
#include "input.h"
#include "message.h"
#include "refbridge.h"

/* libFuzzer's own change of octets, or the standalone driver's. */
size_t LLVMFuzzerMutate(uint8_t *octets, size_t length, size_t room);

enum { BINDINGS = RB_BINDINGS_MAX + 1 }; /* one over what a request may have */

/* A request taken apart, so that a part of it can be changed and all lengths are right again. */
struct request {
    uint8_t kind;
    uint32_t id;
    size_t count;
    struct binding bindings[BINDINGS];
};

/* A number at which something ends, or one that nobody thinks of. */
static uint32_t any_number(struct dice *dice)
{
    static const uint32_t ends[] = {0,    1,    2,    3,     4,     5,       6,          7,          8,
                                    10,   15,   16,   63,    64,    65,      127,        128,        255,
                                    256,  257,  516,  1470,  1500,  4093,    4094,       4095,       65535,
                                    65536, 1000000, 0x7FFFFFFF, 0x80000000, 0xFFFFFFFF};

    return once_in(dice, 6) ? below(dice, UINT32_MAX) : ends[below(dice, sizeof ends / sizeof ends[0])];
}

/* ---- changes of a request that has at least one binding ---- */

/* Takes a request apart; false where it has not the form of one, or too many bindings. */
static bool take_apart(const struct step *step, struct request *request)
{
    struct answer message;

    if (step->tag != STEP_REQUEST || !message_read(&message, step->octets, step->length) ||
        message.bindings > BINDINGS) {
        return false;
    }
    request->kind = message.kind;
    request->id = message.id;
    request->count = 0;
    while (answer_binding(&message, &request->bindings[request->count])) {
        if (++request->count == BINDINGS) {
            break;
        }
    }
    return true;
}

static void put_together(const struct request *request, struct step *step)
{
    struct octets octets;

    request_start(&octets, request->kind, request->id);
    for (size_t i = 0; i < request->count; i++) {
        const struct value *value = &request->bindings[i].value;

        request_add(&octets, &request->bindings[i].name, value->tag == RB_TAG_NULL ? NULL : value);
    }
    step->length = octets.count < STEP_MAX ? octets.count : STEP_MAX;
    memcpy(step->octets, octets.at, step->length);
}

static struct binding *any_binding(struct dice *dice, struct request *request)
{
    return &request->bindings[below(dice, (uint32_t)request->count)];
}

/* Adds a binding of another request, or of the same one. */
static void add_binding(struct dice *dice, struct request *request, const struct request *other)
{
    if (request->count < BINDINGS && other->count > 0) {
        request->bindings[request->count++] = other->bindings[below(dice, (uint32_t)other->count)];
    }
}

static void remove_binding(struct dice *dice, struct request *request)
{
    struct binding *binding = any_binding(dice, request);

    *binding = request->bindings[--request->count];
}

static void swap_bindings(struct dice *dice, struct request *request)
{
    struct binding *one = any_binding(dice, request), *other = any_binding(dice, request), kept = *one;

    *one = *other;
    *other = kept;
}

/* A sub-id goes up or down by one, or is any number; the last ones are the index. */
static void change_sub_id(struct dice *dice, struct request *request)
{
    struct name *name = &any_binding(dice, request)->name;
    uint32_t back = once_in(dice, 2) ? 1 : 1 + below(dice, (uint32_t)name->count);
    uint32_t *sub = &name->sub[name->count - back];

    *sub = once_in(dice, 2) ? any_number(dice) : *sub + (once_in(dice, 2) ? 1u : UINT32_MAX);
}

static void change_name_length(struct dice *dice, struct request *request)
{
    struct name *name = &any_binding(dice, request)->name;

    if (once_in(dice, 2)) {
        name->count -= name->count > NAME_SUBS_MIN;
        return;
    }
    for (uint32_t more = once_in(dice, 8) ? NAME_SUBS_MAX : 1; more > 0 && name->count < NAME_SUBS_MAX; more--) {
        name->sub[name->count++] = any_number(dice);
    }
}

/* A number goes up or down by one or is any number; a string gets another length or other bits. */
static void change_value(struct dice *dice, struct request *request)
{
    struct value *value = &any_binding(dice, request)->value;
    uint32_t number = any_number(dice);

    if (value->tag == RB_TAG_STRING && once_in(dice, 2)) {
        value->count = below(dice, once_in(dice, 4) ? STRING_MAX + 1 : 10);
    } else if (value->count > 0 && once_in(dice, 2)) {
        value->octets[value->count - 1 - below(dice, (uint32_t)value->count)] ^= (uint8_t)(1u << below(dice, 8));
    } else if (value->tag != RB_TAG_STRING && value->count == 4) {
        for (int i = 0; i < 4; i++) {
            value->octets[i] = (uint8_t)(number >> (24 - 8 * i));
        }
    }
}

static void change_type(struct dice *dice, struct request *request)
{
    static const uint8_t tags[] = {RB_TAG_NULL, RB_TAG_INTEGER, RB_TAG_STRING, RB_TAG_UNSIGNED, RB_TAG_COUNTER};
    struct value *value = &any_binding(dice, request)->value;

    value->tag = tags[below(dice, sizeof tags)];
    value->count = value->tag == RB_TAG_STRING ? below(dice, 10) : 4;
}

/* A get, get-next or set of the same names; gets carry null. */
static void change_kind(struct dice *dice, struct request *request)
{
    request->kind = once_in(dice, 12) ? (uint8_t)below(dice, 256) : (uint8_t)below(dice, 4);
    for (size_t i = 0; i < request->count && request->kind < RB_RESPONSE; i++) {
        request->bindings[i].value.tag = RB_TAG_NULL;
    }
}

typedef void request_change(struct dice *dice, struct request *request);

/* Those that keep a request readable stand here more than once. */
static request_change *const request_changes[] = {
    change_sub_id, change_sub_id, change_sub_id,  change_value,  change_value,       change_value,
    change_value,  swap_bindings, remove_binding, change_kind,   change_name_length, change_type,
};

/* ---- changes of a step ---- */

/* Breaks the form: cuts, lengthens, or changes octets. */
static void damage(struct dice *dice, struct step *step)
{
    switch (below(dice, 4)) {
    case 0:
        step->length = below(dice, (uint32_t)step->length + 1);
        break;
    case 1:
        for (uint32_t more = once_in(dice, 3) ? below(dice, STEP_MAX) : 1 + below(dice, 8);
             more > 0 && step->length < STEP_MAX; more--) {
            step->octets[step->length++] = (uint8_t)(once_in(dice, 2) ? RB_TAG_BINDING : below(dice, 0x40));
        }
        break;
    default:
        if (step->length > 0) {
            uint8_t *octet = &step->octets[below(dice, (uint32_t)step->length)];
            *octet = once_in(dice, 2) ? (uint8_t)(*octet ^ 1u << below(dice, 8)) : (uint8_t)any_number(dice);
        }
    }
}

static void change_request(struct dice *dice, struct step *step, const struct step *from)
{
    static struct request request, other;

    if (!take_apart(step, &request) || once_in(dice, 12)) {
        damage(dice, step);
        return;
    }
    if (!take_apart(from, &other)) {
        other = request;
    }
    for (uint32_t more = 1 + below(dice, 3); more > 0; more--) {
        if (request.count == 0 || once_in(dice, 3)) {
            add_binding(dice, &request, &other);
        } else {
            request_changes[below(dice, sizeof request_changes / sizeof request_changes[0])](dice, &request);
        }
    }
    put_together(&request, step);
}

/* A few octets of the block, mostly of those that hold something. */
static void make_patch(struct dice *dice, struct step *step)
{
    static const uint32_t starts[] = {0,    16,   32,    816,   1072,  5428,  5940, 6196,
                                      6256, 21496, 21556, 25636, 25652, 25844, 32760};
    uint32_t place = starts[below(dice, sizeof starts / sizeof starts[0])] + below(dice, 64);

    step_put_number(step, STEP_PATCH, once_in(dice, 4) ? below(dice, RB_BLOCK_SIZE) : place);
    for (uint32_t more = 1 + below(dice, 4); more > 0; more--) {
        step->octets[step->length++] = (uint8_t)(once_in(dice, 3) ? 0 : any_number(dice));
    }
}

/* A change of the block, or of a length that the next request is given. */
static void make_setting(struct dice *dice, struct step *step)
{
    if (once_in(dice, 2)) {
        make_patch(dice, step);
    } else if (once_in(dice, 2)) {
        step_put_number(step, STEP_ROOM,
                        once_in(dice, 2) ? RB_MESSAGE_MAX - 2 + below(dice, 4) : below(dice, STEP_ROOM_MAX));
    } else {
        step_put_number(step, STEP_SIZE,
                        once_in(dice, 2) ? RB_BLOCK_SIZE - 2 + below(dice, 4) : below(dice, STEP_SIZE_MAX));
    }
}

/* ---- changes of an input that has at least one step ---- */

/* Makes room for a step before any other; there is room. */
static struct step *insert_step(struct dice *dice, struct input *input)
{
    size_t at = below(dice, (uint32_t)input->count + 1);

    memmove(&input->steps[at + 1], &input->steps[at], (input->count - at) * sizeof input->steps[0]);
    input->count++;
    return &input->steps[at];
}

static void remove_step(struct dice *dice, struct input *input)
{
    size_t at = below(dice, (uint32_t)input->count);

    input->count--;
    memmove(&input->steps[at], &input->steps[at + 1], (input->count - at) * sizeof input->steps[0]);
}

static void change_start(struct dice *dice, struct input *input)
{
    static const uint8_t ports[] = {1, 2, 4, 7, 8, 9, 12, 33, 63, 64};

    input->start = (uint16_t)(ports[below(dice, sizeof ports)] - 1);
    input->start |= once_in(dice, 3) ? START_FULL : 0;
    input->start |= once_in(dice, 3) ? START_EDITION : 0;
    input->start |= once_in(dice, 3) ? START_DEVICE : 0;
}

static void change_input(struct dice *dice, struct input *input)
{
    static struct step copy;
    const struct step *any = &input->steps[below(dice, (uint32_t)input->count)];
    uint32_t what = below(dice, 20);

    if (what < 2 && input->count < STEPS_MAX) {
        copy = *any;
        *insert_step(dice, input) = copy;
    } else if (what == 2 && input->count < STEPS_MAX) {
        make_setting(dice, insert_step(dice, input));
    } else if (what == 3 && input->count > 1) {
        remove_step(dice, input);
    } else if (what == 4) {
        change_start(dice, input);
    } else {
        change_request(dice, &input->steps[below(dice, (uint32_t)input->count)], any);
    }
}

size_t LLVMFuzzerCustomMutator(uint8_t *octets, size_t length, size_t room, unsigned seed)
{
    static struct input input;
    struct dice dice = dice_of(seed);

    input_read(&input, octets, length);
    if (input.count == 0 || once_in(&dice, 24)) {
        return LLVMFuzzerMutate(octets, length, room);
    }
    for (uint32_t more = 1 + below(&dice, 3); more > 0; more--) {
        change_input(&dice, &input);
    }
    return input_write(&input, octets, room);
}

/* The first steps of one input and the last of another. */
size_t LLVMFuzzerCustomCrossOver(const uint8_t *one, size_t one_length, const uint8_t *other, size_t other_length,
                                 uint8_t *octets, size_t room, unsigned seed)
{
    static struct input first, second;
    struct dice dice = dice_of(seed);

    input_read(&first, one, one_length);
    input_read(&second, other, other_length);
    first.count = below(&dice, (uint32_t)first.count + 1);
    for (size_t i = below(&dice, (uint32_t)second.count + 1); i < second.count && first.count < STEPS_MAX; i++) {
        first.steps[first.count++] = second.steps[i];
    }
    return input_write(&first, octets, room);
}
