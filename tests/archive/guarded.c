/* Calls and resets with damaged blocks, requests and rooms. Each buffer stands between two pages that must not be touched, once at the front page and once at
 * the back page, so that one octet read or written outside it ends the program. Nothing may be written on a refusal, nor behind an answer. */
#include "random.h"
#include "space.h"

enum { SPACE = 40960 };

/* Where a block has its number of static rows, its device, the static rows and the port pairs (docs/LAYOUT.md). */
enum { STATIC_COUNT_AT = 12, STATIC_COUNT_END = 16, DEVICE_AT = 25, STATICS_AT = 21556, STATICS_END = 25652, PAIRS_AT = 25652, PAIRS_SIZE = 256 };

static struct guarded block, request, room;
static unsigned calls, resets_with_rows, resets_of_pairs, numbers[11];

static void call(void)
{
    rb_result got = rb_answer(block.octets, block.length, request.octets, request.length, room.octets, room.length);
    calls++;
    REQUIRE(got.number <= 8, "call %u: number %u", calls, got.number);
    numbers[got.number]++;
    REQUIRE(kept(&request, 0), "call %u: the request was written", calls);
    REQUIRE(got.offset == 0 || (got.number >= RB_FIELD_CUT && got.offset <= request.length), "call %u: number %u has the offset %u", calls, got.number,
            got.offset);
    if (got.number != 0) {
        REQUIRE(got.count == 0 && kept(&block, 0) && kept(&room, 0), "call %u: refusal %u has a count or wrote an octet", calls, got.number);
        return;
    }
    REQUIRE(got.count >= HEAD_SIZE && got.count <= RB_MESSAGE_MAX, "call %u: count %u", calls, got.count);
    REQUIRE(kept(&room, got.count), "call %u: octets behind the answer were written", calls);
    if (request.octets[KIND_AT] != RB_SET || room.octets[STATUS_AT] != RB_NO_ERROR)
        REQUIRE(kept(&block, 0), "call %u: the block was written", calls);
}

/* Plays one input with the buffers at the front and at the back of their spaces. */
static void play(const uint8_t *b, size_t b_len, const struct octets *r, size_t room_len)
{
    static uint8_t filling[SPACE];
    for (size_t i = 0; i < room_len; i++)
        filling[i] = (uint8_t)chance(256);
    for (int back = 0; back < 2; back++) {
        lend(&block, b, b_len, back);
        lend(&request, r->at, r->count, back);
        lend(&room, filling, room_len, back);
        call();
    }
}

static void reset(void)
{
    rb_result got = rb_reset(block.octets, block.length);
    calls++;
    REQUIRE(got.number == RB_ANSWERED || got.number == RB_BLOCK_NOT_LEGAL, "call %u: a reset gave %u", calls, got.number);
    REQUIRE(got.count == 0 && got.offset == 0, "call %u: a reset has a count or an offset", calls);
    numbers[got.number]++;
    if (got.number != RB_ANSWERED) {
        REQUIRE(kept(&block, 0), "call %u: a refused reset wrote an octet", calls);
        return;
    }
    REQUIRE(kept_part(&block, 0, STATIC_COUNT_AT) && kept_part(&block, STATIC_COUNT_END, STATICS_AT) && kept(&block, STATICS_END),
            "call %u: a reset wrote outside the static table", calls);
    REQUIRE(block.octets[DEVICE_AT] == RB_DEVICE_TRANSPARENT || kept(&block, 0), "call %u: a reset wrote a source-routing bridge", calls);
    resets_with_rows += !kept(&block, 0);
    resets_of_pairs += block.octets[PAIRS_AT] != 0;
}

/* Resets a block at the front and at the back of its space, twice each; the second reset writes nothing. */
static void play_reset(const uint8_t *b, size_t b_len)
{
    for (int back = 0; back < 2; back++) {
        lend(&block, b, b_len, back);
        reset();
        memcpy(block.before, block.octets, b_len);
        reset();
        REQUIRE(kept(&block, 0), "call %u: a second reset wrote an octet", calls);
    }
}

/* Strings that nobody asked for, so that some requests are too long. */
static void put_padding(struct octets *r)
{
    static const uint8_t content[STRING_MAX];
    while (r->count <= RB_MESSAGE_MAX)
        put_string(r, "dot1dBridge", NULL, 0, content, sizeof content);
}

/* Static rows of status 3, 4 and 5 in turn. */
static void put_static_rows(struct octets *r)
{
    for (uint32_t i = 0; i < RB_BINDINGS_MAX; i++)
        put_number(r, "dot1dStaticStatus", INDEX(2, 0, 94, 16, 0, i, 0), 3 + i % 3);
}

/* Pairs of port 1 and others, enabled and disabled in turn. */
static void put_pairs(struct octets *r, uint32_t ports)
{
    for (uint32_t high = 2; high <= ports && high < 2 + RB_BINDINGS_MAX / 2; high++) {
        put_number(r, "dot1dPortPairBridgeNum", INDEX(1, high), high);
        put_number(r, "dot1dPortPairBridgeState", INDEX(1, high), 1 + high % 2);
    }
}

static void make_rows(uint8_t own[RB_BLOCK_SIZE], uint32_t ports, uint32_t device)
{
    struct octets r;
    request_start(&r, RB_SET, 0);
    if (device == RB_DEVICE_TRANSPARENT)
        put_static_rows(&r);
    else
        put_pairs(&r, ports);
    play(own, RB_BLOCK_SIZE, &r, RB_MESSAGE_MAX);
    REQUIRE(room.octets[STATUS_AT] == RB_NO_ERROR, "rows cannot be made");
    memcpy(own, block.octets, RB_BLOCK_SIZE);
}

/* An octet of the block, mostly of those that hold something. */
static uint32_t some_place(void)
{
    switch (chance(5)) {
    case 0:
        return chance(RB_BLOCK_SIZE);
    case 1:
        return PAIRS_AT + chance(PAIRS_SIZE + 8);
    default:
        return chance(6400);
    }
}

static void play_bridge(uint32_t ports, uint32_t edition, uint32_t device)
{
    static uint8_t own[RB_BLOCK_SIZE], hurt[SPACE];
    static const uint8_t address[RB_ADDRESS_SIZE] = {2, 0, 0, 0, 0, 1};
    static const enum rb_kind kinds[] = {RB_GET, RB_GET_NEXT, RB_SET, RB_SET};
    struct octets r;
    REQUIRE(rb_setup(own, sizeof own, ports, edition, device, address, sizeof address).number == 0, "set-up");
    make_rows(own, ports, device);
    for (unsigned i = 0; i < 400; i++) {
        random_request(&r, kinds[chance(4)]);
        if (chance(3) == 0)
            damage(&r);
        if (chance(60) == 0)
            put_padding(&r);
        play(own, sizeof own, &r, RB_MESSAGE_MAX + chance(2) * chance(900));
        memcpy(own, block.octets, sizeof own);
        memcpy(hurt, own, sizeof own);
        for (uint32_t n = 1 + chance(2); n > 0; n--)
            hurt[some_place()] ^= (uint8_t)(1u << chance(8));
        size_t hurt_len = chance(9) == 0 ? chance(SPACE) : RB_BLOCK_SIZE;
        play(hurt, hurt_len, &r, chance(9) == 0 ? chance(RB_MESSAGE_MAX) : RB_MESSAGE_MAX);
        play_reset(own, sizeof own);
        play_reset(hurt, hurt_len);
    }
}

/* Set-up with every kind of wrong argument, between guard pages too. */
static void play_setup(void)
{
    static uint8_t octets[SPACE];
    for (unsigned i = 0; i < 300; i++) {
        size_t block_len = chance(2) == 0 ? RB_BLOCK_SIZE : chance(SPACE), address_len = chance(2) == 0 ? RB_ADDRESS_SIZE : chance(12);
        uint32_t ports = chance(70), edition = chance(4), device = chance(4);
        lend(&block, octets, block_len, (int)chance(2));
        lend(&request, octets, address_len, (int)chance(2));
        rb_result got = rb_setup(block.octets, block.length, ports, edition, device, request.octets, request.length);
        int takes = block_len == RB_BLOCK_SIZE && address_len == RB_ADDRESS_SIZE && ports >= 1 && ports <= 64 &&
                    (edition == RB_EDITION_OLD || edition == RB_EDITION_NEW) &&
                    (device == RB_DEVICE_TRANSPARENT || device == RB_DEVICE_SOURCE_ROUTING);
        REQUIRE(got.number == (takes ? RB_ANSWERED : RB_SETUP_REFUSED) && got.count == 0 && got.offset == 0, "set-up gave %u", got.number);
        REQUIRE(takes || kept(&block, 0), "a refused set-up wrote an octet");
        numbers[got.number]++;
    }
}

int main(int argc, char **argv)
{
    if (argc > 1)
        chance_seed(strtoull(argv[1], NULL, 10) * 2 + 1);
    guarded_make(&block, SPACE);
    guarded_make(&request, SPACE);
    guarded_make(&room, SPACE);
    static const uint32_t ports[] = {1, 4, 8, 9, 33, 63, 64};
    for (size_t i = 0; i < sizeof ports / sizeof ports[0]; i++) {
        play_bridge(ports[i], i % 2 == 0 ? RB_EDITION_OLD : RB_EDITION_NEW, RB_DEVICE_TRANSPARENT);
        if (i % 2 == 1)
            play_bridge(ports[i], i % 4 == 1 ? RB_EDITION_OLD : RB_EDITION_NEW, RB_DEVICE_SOURCE_ROUTING);
    }
    play_setup();
    REQUIRE(resets_with_rows > 0 && resets_of_pairs > 0, "no reset removed a row, or none was of a bridge with pairs, so nothing was tried of it");
    printf("guarded: %u calls, %u resets that removed rows;", calls, resets_with_rows);
    for (unsigned n = 0; n <= 9; n++) {
        REQUIRE(numbers[n] > 0, "no call gave %u, so nothing was tried of it", n);
        printf(" %u: %u%s", n, numbers[n], n < 9 ? "," : "\n");
    }
    return 0;
}
