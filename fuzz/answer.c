/* Fuzzing of rb_answer: plays the steps of an input (input.h) and checks what must hold of every call.
 *
 *   - the number is 0 to 8; 1 and 2 come exactly where a length says so, 3 comes only where the block was changed or
 *     has another length; an offset comes with 4 to 8 alone;
 *   - a refusal has the count 0 and writes nothing; octets behind an answer, and the request, keep what they had;
 *   - the block changes only by a set without a fault, and is legal afterwards;
 *   - an answer is a response that goes with its request, and its values are some that the objects can have (reply.c);
 *   - the same call on other addresses, with other octets in the room, does the same.
 *
 * All octets that are lent stand against a page that must not be touched, at its end or at its start. The archive
 * itself is not instrumented: outcomes are counted here, and the mutator (mutate.c) knows steps and fields. */
#define _DEFAULT_SOURCE
#include "answer.h"

#include <stdbool.h>
#include <stdio.h>
#include <stdlib.h>
#include <string.h>
#include <sys/mman.h>
#include <unistd.h>

#include "input.h"
#include "refbridge.h"
#include "reply.h"
#include "start.h"

enum { SPACE = 40960, NUMBERS = 9, STATUSES = 19, STATUS_FIELD_AT = 11 };

uint8_t outcomes[OUTCOMES] __attribute__((section("__libfuzzer_extra_counters"), used));

/* What one call is given. */
struct call {
    uint8_t block[STEP_SIZE_MAX];
    size_t block_len;
    struct octets request;
    size_t room_len;
    bool patched;
};

/* What one call left. */
struct outcome {
    rb_result result;
    uint8_t block[STEP_SIZE_MAX];
    uint8_t room[STEP_ROOM_MAX];
};

static uint8_t *block_space, *request_space, *room_space;
static unsigned long inputs, calls, numbers[NUMBERS], statuses[STATUSES];

/* Ends the fuzzer's run; the driver keeps the input. */
static void require(bool holds, const char *what)
{
    if (!holds) {
        fprintf(stderr, "fuzz: input %lu, call %lu: %s\n", inputs, calls, what);
        abort();
    }
}

static void print_totals(void)
{
    printf("fuzz: %lu inputs, %lu calls; by number:", inputs, calls);
    for (int n = 0; n < NUMBERS; n++) {
        printf(" %d: %lu", n, numbers[n]);
    }
    printf("; answers by status:");
    for (int s = 0; s < STATUSES; s++) {
        if (statuses[s] > 0) {
            printf(" %d: %lu", s, statuses[s]);
        }
    }
    printf("\n");
}

/* Octets between two pages that must not be touched. */
static uint8_t *make_space(void)
{
    size_t page = (size_t)sysconf(_SC_PAGESIZE);
    uint8_t *all = mmap(NULL, SPACE + 2 * page, PROT_NONE, MAP_PRIVATE | MAP_ANONYMOUS, -1, 0);

    require(all != MAP_FAILED && SPACE % page == 0, "no memory between guard pages");
    require(mprotect(all + page, SPACE, PROT_READ | PROT_WRITE) == 0, "no memory between guard pages");
    return all + page;
}

static void prepare(void)
{
    if (block_space == NULL) {
        block_space = make_space();
        request_space = make_space();
        room_space = make_space();
        atexit(print_totals);
    }
}

static bool all_are(const uint8_t *octets, size_t length, uint8_t fill)
{
    for (size_t i = 0; i < length; i++) {
        if (octets[i] != fill) {
            return false;
        }
    }
    return true;
}

/* Refusals 4 to 8 tell where the request broke, 4 also its end; 7 is about field 01 or 03, 8 about a binding's tag. */
static void check_offset(const struct octets *request, rb_result result)
{
    size_t offset = result.offset;
    bool inside = offset < request->count;

    switch (result.number) {
    case RB_FIELD_CUT:
        require(offset <= request->count, "an offset past the request's end");
        break;
    case RB_TAG_NOT_ALLOWED:
    case RB_LENGTH_WRONG:
        require(inside, "an offset of no octet of the request");
        break;
    case RB_HEAD_WRONG:
        require(offset == 0 || offset == STATUS_FIELD_AT, "an offset of neither field 01 nor field 03");
        break;
    case RB_TOO_MANY_BINDINGS:
        require(inside && request->at[offset] == RB_TAG_BINDING, "an offset of no binding's tag");
        break;
    default:
        require(offset == 0, "an offset with a return that is not 4 to 8");
    }
}

/* Calls with octets at the end or at the start of their spaces, the room filled; checks what needs no other call. */
static void play(const struct call *call, bool at_end, uint8_t fill, struct outcome *outcome)
{
    uint8_t *block = block_space + (at_end ? SPACE - call->block_len : 0);
    uint8_t *request = request_space + (at_end ? SPACE - call->request.count : 0);
    uint8_t *room = room_space + (at_end ? SPACE - call->room_len : 0);
    rb_result result;

    memcpy(block, call->block, call->block_len);
    memcpy(request, call->request.at, call->request.count);
    memset(room, fill, call->room_len);
    result = rb_answer(block, call->block_len, request, call->request.count, room, call->room_len);
    require(memcmp(request, call->request.at, call->request.count) == 0, "the request was written");
    require(result.number < NUMBERS, "a number that is not 0 to 8");
    require(result.number == RB_ANSWERED || result.count == 0, "a refusal with a count");
    require(result.count <= call->room_len, "a count over the room's length");
    check_offset(&call->request, result);
    require(all_are(room + result.count, call->room_len - result.count, fill), "octets behind the answer were written");
    outcome->result = result;
    memcpy(outcome->block, block, call->block_len);
    memcpy(outcome->room, room, result.count);
}

/* Refusals 1 and 2 come exactly where the lengths say so, and first; without a reason in the block there is no 3. */
static void check_number(const struct call *call, uint32_t number)
{
    bool room_short = call->room_len<RB_MESSAGE_MAX, request_long = call->request.count> RB_MESSAGE_MAX;

    require((number == RB_ROOM_SHORT) == room_short,
            "refusal 1 where the room is long enough, or none where it is not");
    if (room_short) {
        return;
    }
    require((number == RB_REQUEST_LONG) == request_long, "refusal 2 where the request is short enough, or the reverse");
    if (request_long) {
        return;
    }
    if (call->block_len != RB_BLOCK_SIZE) {
        require(number == RB_BLOCK_NOT_LEGAL, "a block of another length was taken");
    } else if (!call->patched) {
        require(number != RB_BLOCK_NOT_LEGAL, "a block that the library left is not legal");
    }
}

/* A get without bindings, which every legal block answers. */
static bool is_legal(const uint8_t *block)
{
    static struct call call;
    static struct outcome outcome;

    memcpy(call.block, block, RB_BLOCK_SIZE);
    call.block_len = RB_BLOCK_SIZE;
    request_start(&call.request, RB_GET, 0);
    call.room_len = RB_MESSAGE_MAX;
    play(&call, true, 0x5A, &outcome);
    require(outcome.result.number == RB_ANSWERED || outcome.result.number == RB_BLOCK_NOT_LEGAL,
            "an empty get is neither answered nor refused for its block");
    require(memcmp(outcome.block, block, RB_BLOCK_SIZE) == 0, "an empty get changed the block");
    return outcome.result.number == RB_ANSWERED;
}

static void check_outcome(const struct call *call, const struct outcome *outcome)
{
    bool changed = memcmp(outcome->block, call->block, call->block_len) != 0;
    uint8_t status = outcome->room[STATUS_AT];
    const char *flaw;

    check_number(call, outcome->result.number);
    if (outcome->result.number != RB_ANSWERED) {
        require(!changed, "a refusal wrote the block");
        return;
    }
    flaw = reply_flaw(&call->request, outcome->room, outcome->result.count, kind_of(call->block));
    require(flaw == NULL, flaw);
    require(status < STATUSES, "a status that there is not");
    require(!changed || (request_kind(&call->request) == RB_SET && status == RB_NO_ERROR),
            "the block was written without an accepted set");
    statuses[status]++;
    reply_outcomes(&call->request, outcome->room, outcome->result.count);
}

/* Plays a request twice and checks it; `own` is the bridge, which goes on with what a legal block became. */
static void play_request(struct call *call, uint8_t *own)
{
    static struct outcome one, other;

    play(call, true, 0xA5, &one);
    play(call, false, 0x3C, &other);
    calls++;
    numbers[one.result.number]++;
    outcomes[one.result.number]++;
    require(one.result.number == other.result.number && one.result.count == other.result.count &&
                one.result.offset == other.result.offset &&
                memcmp(one.room, other.room, one.result.count) == 0 &&
                memcmp(one.block, other.block, call->block_len) == 0,
            "the same call did something else");
    check_outcome(call, &one);
    if (call->block_len != RB_BLOCK_SIZE) {
        return;
    }
    if (is_legal(one.block)) {
        memcpy(own, one.block, RB_BLOCK_SIZE);
    } else {
        require(one.result.number != RB_ANSWERED, "the block is not legal after an answer");
        require(call->patched, "the block is not legal after a refusal");
    }
}

/* Everything as it should be, for the next request. */
static void lend_whole(struct call *call, const uint8_t *own)
{
    memcpy(call->block, own, RB_BLOCK_SIZE);
    call->block_len = RB_BLOCK_SIZE;
    call->room_len = RB_MESSAGE_MAX;
    call->patched = false;
}

static void patch(struct call *call, const struct step *step)
{
    size_t place = step_number(step) % RB_BLOCK_SIZE;

    for (size_t i = 2; i < step->length; i++) {
        call->block[(place + i - 2) % RB_BLOCK_SIZE] = step->octets[i];
    }
    call->patched = true;
}

int LLVMFuzzerTestOneInput(const uint8_t *octets, size_t length)
{
    static struct input input;
    static struct call call; /* a step's contents fit a request of it */
    static uint8_t own[RB_BLOCK_SIZE];

    prepare();
    inputs++;
    input_read(&input, octets, length);
    start_bridge(own, input.start);
    lend_whole(&call, own);
    for (size_t i = 0; i < input.count; i++) {
        const struct step *step = &input.steps[i];

        if (step->tag == STEP_PATCH) {
            patch(&call, step);
        } else if (step->tag == STEP_ROOM) {
            call.room_len = step_number(step) % (STEP_ROOM_MAX + 1);
        } else if (step->tag == STEP_SIZE) {
            call.block_len = step_number(step) % (STEP_SIZE_MAX + 1);
        } else {
            call.request.count = step->length;
            memcpy(call.request.at, step->octets, step->length);
            play_request(&call, own);
            lend_whole(&call, own);
        }
    }
    return 0;
}
