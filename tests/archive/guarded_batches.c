/* Batches between guard pages: block and batch stand once at the front page and once at the back page, so that one octet read or written outside them ends the
 * program. The check writes nothing, and each result has the fields that go with it and no other. */
#include "random.h"
#include "space.h"

enum { PLAYS = 2500, BLOCK_SPACE = 40960, BATCH_SPACE = 655360, NUMBERS = 24 };

static struct guarded block, batch;
static unsigned calls, accepted, pairs, short_of_room, short_of_pairs, numbers[NUMBERS];

/* A batch while it is made. */
static uint8_t octets[BATCH_SPACE];
static size_t length;

static void add_frame(const struct octets *message)
{
    const uint8_t head[RB_FRAME_HEAD] = {0x7F, 0, 2, (uint8_t)(message->count >> 8), (uint8_t)message->count};

    memcpy(octets + length, head, sizeof head);
    memcpy(octets + length + sizeof head, message->at, message->count);
    length += sizeof head + message->count;
}

/* Sets, at times damaged, and at times a get; their number may be one that a batch cannot have. */
static void make_batch(void)
{
    uint32_t frames = chance(12) == 0 ? RB_BATCH_MAX - 1 + chance(4) : chance(5);
    int hurt = chance(2) == 0;
    struct octets message;

    length = 0;
    for (uint32_t i = 0; i < frames; i++) {
        random_request(&message, chance(60) == 0 ? RB_GET : RB_SET);
        if (hurt && chance(frames) == 0) {
            damage(&message);
        }
        add_frame(&message);
    }
}

/* Changes, cuts or lengthens the batch, its frames' headers too. */
static void hurt_batch(void)
{
    if (chance(3) == 0 && length > 0) {
        octets[chance((uint32_t)length)] = (uint8_t)chance(256);
    }
    if (chance(4) == 0) {
        length = chance((uint32_t)length + 1);
    }
    if (chance(8) == 0) {
        octets[length++] = 0x7F;
    }
    if (chance(12) == 0 && length > RB_FRAME_HEAD) {
        octets[3] = (uint8_t)chance(256);
    }
}

/* What goes with the number, and nothing else. */
static void judge(rb_batch is)
{
    int in_message = is.number >= RB_FIELD_CUT && is.number <= RB_TOO_MANY_BINDINGS;
    int pair = is.first != 0 || is.second != 0;

    REQUIRE(is.number == 0 || is.number == RB_BLOCK_NOT_LEGAL || in_message || (is.number >= RB_CONSOLE_WRONG && is.number < NUMBERS), "number %u", is.number);
    REQUIRE(in_message ? is.message >= 1 && is.message <= RB_BATCH_MAX && is.offset <= RB_MESSAGE_MAX : is.message == 0 && is.offset == 0,
            "number %u with message %u, offset %u", is.number, is.message, is.offset);
    REQUIRE(is.number == 0 || (!pair && is.table == 0), "refusal %u with a pair or a table", is.number);
    REQUIRE(!pair || (is.first >= 1 && is.first < is.second && is.second <= RB_BATCH_MAX && is.table == 0), "pair %u, %u", is.first, is.second);
    REQUIRE(is.table <= RB_TABLE_PORT_PAIRS, "table %u", is.table);
    numbers[is.number]++;
    accepted += is.number == 0 && !pair && is.table == 0;
    pairs += pair;
    short_of_room += is.table != 0;
    short_of_pairs += is.table == RB_TABLE_PORT_PAIRS;
}

static void check(const uint8_t *b, size_t b_len)
{
    for (int back = 0; back < 2; back++) {
        lend(&block, b, b_len, back);
        lend(&batch, octets, length, back);
        judge(rb_check_batch(block.octets, block.length, batch.octets, batch.length));
        calls++;
        REQUIRE(kept(&block, 0) && kept(&batch, 0), "call %u: the check wrote an octet", calls);
    }
}

/* So many rows: VLANs from 1001 on, or pairs of port 1 and others from port 8 on, which the random messages do not name. */
static void fill(uint8_t own[RB_BLOCK_SIZE], uint32_t rows, uint32_t device)
{
    uint8_t room[RB_MESSAGE_MAX];
    struct octets request;

    for (uint32_t i = 0; i < rows; i++) {
        request_start(&request, RB_SET, i);
        if (device == RB_DEVICE_TRANSPARENT) {
            put_number(&request, "dot1qVlanStaticRowStatus", INDEX(1001 + i), 4);
        } else {
            put_number(&request, "dot1dPortPairBridgeState", INDEX(1 + i / 56, 8 + i % 56), 1);
            put_number(&request, "dot1dPortPairBridgeNum", INDEX(1 + i / 56, 8 + i % 56), 5);
        }
        rb_result got = rb_answer(own, RB_BLOCK_SIZE, request.at, request.count, room, sizeof room);
        REQUIRE(got.number == RB_ANSWERED && room[STATUS_AT] == RB_NO_ERROR, "a row cannot be made");
    }
}

static void play_bridge(uint32_t ports, uint32_t rows, uint32_t device)
{
    static uint8_t own[RB_BLOCK_SIZE], hurt[RB_BLOCK_SIZE];
    static const uint8_t address[RB_ADDRESS_SIZE] = {2, 0, 0, 0, 0, 1};

    REQUIRE(rb_setup(own, sizeof own, ports, RB_EDITION_OLD, device, address, sizeof address).number == RB_ANSWERED, "set-up");
    fill(own, rows, device);
    for (unsigned i = 0; i < PLAYS; i++) {
        make_batch();
        if (chance(3) == 0) {
            hurt_batch();
        }
        check(own, sizeof own);
        if (chance(4) == 0) {
            memcpy(hurt, own, sizeof own);
            hurt[chance(6400)] ^= (uint8_t)(1u << chance(8));
            check(hurt, chance(9) == 0 ? chance(sizeof hurt) : sizeof hurt);
        }
    }
}

int main(int argc, char **argv)
{
    chance_seed(argc == 2 ? strtoull(argv[1], NULL, 10) * 2 + 1 : 1);
    guarded_make(&block, BLOCK_SPACE);
    guarded_make(&batch, BATCH_SPACE);
    play_bridge(1, 0, RB_DEVICE_TRANSPARENT);
    play_bridge(9, 253, RB_DEVICE_TRANSPARENT);
    play_bridge(64, 255, RB_DEVICE_TRANSPARENT);
    play_bridge(4, 0, RB_DEVICE_SOURCE_ROUTING);
    play_bridge(64, 62, RB_DEVICE_SOURCE_ROUTING);
    printf("batches between guard pages: %u calls, %u accepted, %u pairs, %u short of room; refused", calls, accepted, pairs, short_of_room);
    REQUIRE(accepted > 0 && pairs > 0 && short_of_room > short_of_pairs && short_of_pairs > 0, "a result never came");
    for (unsigned n = 1; n < NUMBERS; n++) {
        REQUIRE(numbers[n] > 0 || n < RB_BLOCK_NOT_LEGAL || (n > RB_TOO_MANY_BINDINGS && n < RB_CONSOLE_WRONG), "number %u never came", n);
        if (numbers[n] > 0) {
            printf(" %u: %u", n, numbers[n]);
        }
    }
    printf("\n");
    return 0;
}
