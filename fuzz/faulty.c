/* A library that breaks one promise, to show that the harness finds it. It is linked before the archive, with the
 * linker's --wrap=rb_answer; FAULT is the number of the promise.
 *
 *   1 an octet behind the answer is written        5 the request is written
 *   2 a refusal has a count                        6 a refusal writes the block
 *   3 the block is not legal after a set           7 an octet behind the request is read
 *   4 a get writes the block                       8 the answer depends on what the room held
 *   9 a fault names no binding                    10 the number is none of 0 to 8
 *  11 a value is of another type than its object   12 an accepted set is one that must not be
 *  13 an offset is past the request's end          14 a return that is not 4 to 8 has an offset
 *  15 a 17th binding has the offset of its contents  16 timers are accepted that do not belong together
 *  17 a largest frame is answered that there is not  18 a port pair goes, and its bridge number is accepted */
#include <stdlib.h>
#include <string.h>

#include "message.h"
#include "refbridge.h"

enum { AT_DELETES = 4, AT_FREE = 26, HEADER_OCTETS = 3, NUMBER_OCTETS = 4 };

/* The largest frame of a fresh port, and one beside it, by their last two octets. */
static const uint8_t fresh_frame[] = {0x05, 0xBE}, no_frame[] = {0x05, 0xBF};

/* Of a number at the end of an answer, with its header. */
enum { CONTENT_OCTETS = HEADER_OCTETS + NUMBER_OCTETS };

rb_result __real_rb_answer(uint8_t *block, size_t block_len, const uint8_t *request, size_t request_len, uint8_t *room,
                           size_t room_len);
rb_result __wrap_rb_answer(uint8_t *block, size_t block_len, const uint8_t *request, size_t request_len, uint8_t *room,
                           size_t room_len);

static int fault(void)
{
    const char *number = getenv("FAULT");

    return number != NULL ? atoi(number) : 0;
}

static void break_answer(uint8_t *block, uint8_t *request, size_t request_len, uint8_t *room, rb_result *result)
{
    static volatile uint8_t read_beyond;

    switch (fault()) {
    case 1:
        room[result->count] ^= result->count < RB_MESSAGE_MAX;
        break;
    case 3:
        block[AT_FREE] = request[KIND_AT] == RB_SET && room[STATUS_AT] == 0;
        break;
    case 4:
        block[AT_DELETES] ^= request[KIND_AT] != RB_SET;
        break;
    case 5:
        request[request_len - 1] ^= 1;
        break;
    case 7:
        read_beyond = request[request_len];
        (void)read_beyond;
        break;
    case 9:
        room[INDEX_AT] = room[STATUS_AT] > RB_TOO_BIG ? 0 : room[INDEX_AT];
        break;
    case 10:
        result->number = result->count > 100 ? 9 : 0;
        break;
    case 11:
        if (request[KIND_AT] == RB_GET && result->count > HEAD_SIZE + CONTENT_OCTETS &&
            room[result->count - CONTENT_OCTETS] == RB_TAG_INTEGER) {
            room[result->count - CONTENT_OCTETS] = RB_TAG_UNSIGNED;
        }
        break;
    case 12:
        if (request[KIND_AT] == RB_SET && room[STATUS_AT] == RB_NOT_WRITABLE) {
            room[STATUS_AT] = room[INDEX_AT] = 0;
        }
        break;
    case 16:
        if (request[KIND_AT] == RB_SET && room[STATUS_AT] == RB_INCONSISTENT_VALUE) {
            room[STATUS_AT] = room[INDEX_AT] = 0;
        }
        break;
    case 17:
        if (request[KIND_AT] == RB_GET && memcmp(room + result->count - 2, fresh_frame, 2) == 0) {
            memcpy(room + result->count - 2, no_frame, 2);
        }
        break;
    case 18:
        if (request[KIND_AT] == RB_SET && room[STATUS_AT] == RB_INCONSISTENT_NAME) {
            room[STATUS_AT] = room[INDEX_AT] = 0;
        }
        break;
    }
}

static void break_offset(size_t request_len, rb_result *result)
{
    bool broken = result->number >= RB_FIELD_CUT;

    switch (fault()) {
    case 13:
        result->offset = broken ? (uint32_t)request_len + 1 : 0;
        break;
    case 14:
        result->offset = broken ? result->offset : 1;
        break;
    case 15:
        result->offset += result->number == RB_TOO_MANY_BINDINGS ? HEADER_OCTETS : 0;
        break;
    }
}

rb_result __wrap_rb_answer(uint8_t *block, size_t block_len, const uint8_t *request, size_t request_len, uint8_t *room,
                           size_t room_len)
{
    uint8_t held = room_len > 7 ? room[7] : 0;
    rb_result result = __real_rb_answer(block, block_len, request, request_len, room, room_len);

    if (result.number == RB_ANSWERED) {
        break_answer(block, (uint8_t *)(uintptr_t)request, request_len, room, &result);
        if (fault() == 8 && result.count > 40) {
            room[result.count - 1] = held;
        }
    } else if (fault() == 2) {
        result.count = 1;
    } else if (fault() == 6 && result.number > RB_BLOCK_NOT_LEGAL) {
        block[AT_DELETES] ^= 1;
    }
    break_offset(request_len, &result);
    return result;
}
