/* refbridge: a proved SNMP reference bridge.
 *
 * The caller lends every octet that the library works on: a block that holds one bridge, a request, and a room for the answer. The library keeps
 * nothing between calls, takes no memory, and has no globals, so calls on different blocks may run at the same time.
 *
 * What every call does is an equation with a definition (in the specs of the crates answer, block, reset, timers, tally, datagram, console, walks and
 * batch), proved for all octets, lengths and numbers. What the caller must still promise, because C cannot show it to the library:
 *   - each pointer is valid for as many octets as the length beside it says: `block`, `state`, `room` and `list` to read and write, the others to
 *     read; a pointer is not NULL, not even with the length 0;
 *   - block, request and room do not overlap, and neither do block and address, nor datagram, message, community and
 *     room, nor state, chunk and room;
 *   - a run's list is valid for `count` records and its mark for one octet, and the mark does not stand in the list;
 *   - nothing else writes them during a call.
 */
#ifndef REFBRIDGE_H
#define REFBRIDGE_H

#include <stddef.h>
#include <stdint.h>

#ifdef __cplusplus
extern "C" {
#endif

/* Sizes in octets. */
#define RB_BLOCK_SIZE   32768u /* a block */
#define RB_MESSAGE_MAX  1472u  /* the longest request, the longest answer, and the smallest answer room */
#define RB_ADDRESS_SIZE 6u     /* a bridge's address */
#define RB_BINDINGS_MAX 16u    /* bindings in a message */
#define RB_PORTS_MAX    64u    /* ports of a bridge */
#define RB_CASES_MAX    65535u /* cases of a run */
#define RB_CONSOLE_SIZE 1477u  /* a saved state of the serial console */
#define RB_ENTRY_SIZE   20u    /* an entry of the list that a comparison of two walks writes */
#define RB_FRAME_HEAD   5u     /* what stands before a message in its frame */
#define RB_BATCH_MAX    64u    /* messages of a batch */

/* Numbered returns. A refusal keeps every octet that is lent, and every other result is 0, but for the offset of 4 to 8. With 21 and 22 the room is kept too; a
 * stream that such a number ends keeps it in its saved state. */
enum rb_number {
    RB_ANSWERED = 0,          /* the call did its work */
    RB_ROOM_SHORT = 1,        /* the answer room has under 1,472 octets */
    RB_REQUEST_LONG = 2,      /* the request has over 1,472 octets */
    RB_BLOCK_NOT_LEGAL = 3,   /* the block has not 32,768 octets or is not a legal image */
    RB_FIELD_CUT = 4,         /* a field's header or contents are cut by what encloses it */
    RB_TAG_NOT_ALLOWED = 5,   /* a tag is not allowed where it stands */
    RB_LENGTH_WRONG = 6,      /* a field has a wrong length, or octets are left after a binding's two fields */
    RB_HEAD_WRONG = 7,        /* the kind is not 0, 1 or 3, or status or index is not 0 */
    RB_TOO_MANY_BINDINGS = 8, /* there is a 17th binding */
    RB_SETUP_REFUSED = 9,     /* set-up: block not 32,768 octets, ports not 1 to 64, an unknown edition or device, or address not 6 octets */
    RB_TIMER_RANGE = 10,      /* a timer conversion is out of range */
    RB_EVENT_UNKNOWN = 11,    /* an unknown event, or an id that is not listed */
    RB_START_REFUSED = 12,    /* start of a case already started, or while one runs */
    RB_VERDICT_REFUSED = 13,  /* verdict or crash with none running, or verdict for another case */
    RB_RUN_ENDED = 14,        /* any event after end */
    RB_RUN_NOT_LEGAL = 15,    /* the list is too long, not ascending, or in a state that no events lead to */
    RB_BER_BROKEN = 16,       /* a datagram: broken BER, octets left over, or a wrong tag other than a PDU's or a content's */
    RB_VERSION_WRONG = 17,    /* a datagram: the version is not 1 (SNMPv2c) */
    RB_PDU_NOT_TAKEN = 18,    /* a datagram: the call does not take this kind of PDU */
    RB_NO_COUNTERPART = 19,   /* a number, content or name has no counterpart in the other form */
    RB_DATAGRAM_LONG = 20,    /* a datagram or a message, given or to be written, has over 1,472 octets */
    RB_CONSOLE_WRONG = 21,    /* console: a wrong header or inner length, or a saved state that no stream leaves; a batch: that, or a cut frame */
    RB_CONSOLE_LONG = 22,     /* console and batch: a message length over 1,472 */
    RB_BATCH_LONG = 23,       /* a batch: octets after 64 frames */
    RB_NOT_ASCENDING = 24,    /* a walk's names do not ascend strictly */
    RB_LIST_SHORT = 25        /* the list has not room for all entries of a comparison */
};

/* Kinds of message: the one octet of field 01. */
enum rb_kind { RB_GET = 0, RB_GET_NEXT = 1, RB_RESPONSE = 2, RB_SET = 3 };

/* Status of an answer: 0, or the fault of the binding that the index octet names, counted from 1; tooBig has the index 0. */
enum rb_status {
    RB_NO_ERROR = 0,
    RB_TOO_BIG = 1,
    RB_GEN_ERR = 5,               /* the name stands in an earlier binding */
    RB_WRONG_TYPE = 7,
    RB_WRONG_LENGTH = 8,
    RB_WRONG_VALUE = 10,
    RB_NO_CREATION = 11,          /* no index that this bridge can have */
    RB_INCONSISTENT_VALUE = 12,
    RB_RESOURCE_UNAVAILABLE = 13, /* more rows than a table has room for: 256, and 64 port pairs */
    RB_NOT_WRITABLE = 17,
    RB_INCONSISTENT_NAME = 18     /* a column of a row that is absent and that the request does not make */
};

/* Tags of fields. */
enum rb_tag {
    RB_TAG_KIND = 0x01,
    RB_TAG_ID = 0x02,
    RB_TAG_STATUS = 0x03,
    RB_TAG_BINDING = 0x10,
    RB_TAG_NAME = 0x11,
    RB_TAG_NULL = 0x20,
    RB_TAG_INTEGER = 0x21,
    RB_TAG_STRING = 0x22,
    RB_TAG_UNSIGNED = 0x23,
    RB_TAG_COUNTER = 0x24,
    RB_TAG_NO_SUCH_OBJECT = 0x30,
    RB_TAG_NO_SUCH_INSTANCE = 0x31,
    RB_TAG_END_OF_MIB_VIEW = 0x32
};

/* States of a case in a run. A running case counts as broken until its verdict. */
enum rb_state { RB_NOT_RUN = 0, RB_RUNNING = 1, RB_PASSED = 2, RB_FAILED = 3, RB_BROKEN = 4 };

/* Events of a run. Start, pass and fail name a case; the id beside crash and end is not looked at. */
enum rb_event { RB_START = 1, RB_PASS = 2, RB_FAIL = 3, RB_CRASH = 4, RB_END = 5 };

/* What a call returns: one of rb_number, a count that is 0 unless the number is 0, and an offset that is 0 unless the number is 4 to 8: then it tells where in
 * the request the field's tag octet is or would be, or the first octet that is left over behind a binding's two fields. */
typedef struct {
    uint32_t number;
    uint32_t count;
    uint32_t offset;
} rb_result;

/* A case of a run: its id, and one of rb_state. */
typedef struct {
    uint32_t id;
    uint32_t state;
} rb_case;

/* How many cases of a run are in each class; the four add up to the length of the list. The number is 0, or 15 and the four are 0. */
typedef struct {
    uint32_t number;
    uint32_t passed;
    uint32_t failed;
    uint32_t broken;
    uint32_t not_run;
} rb_report;

/* What a call of the serial console returns: one of rb_number; the octets of the chunk that it took; whether it handed out a message, 1 or 0; and the
 * message's length, which may be 0. */
typedef struct {
    uint32_t number;
    uint32_t taken;
    uint32_t complete;
    uint32_t count;
} rb_console;

/* The editions that a bridge may follow. In the newer one StpPriority takes the multiples of 4096 from 0 to 61440 and StpPortPriority those of 16 from 0
 * to 240; everything else is the same in both. */
enum rb_edition {
    RB_EDITION_OLD = 1,
    RB_EDITION_NEW = 2
};

/* The devices that a bridge may be. A source-routing one has the objects under 17.1, with Type 3, the largest frame of each port (17.3.1.1.6: one of 64
 * numbers, 1470 at first), the table of port pairs (17.3.5.1: at most 64, none at first), and no others. A transparent one has all others and those under
 * 17.1, with Type 2. */
enum rb_device {
    RB_DEVICE_TRANSPARENT = 1,
    RB_DEVICE_SOURCE_ROUTING = 2
};

/* Writes a fresh bridge with `ports` ports (1 to 64), one of rb_edition and one of rb_device into the whole block; the address has 6 octets. The block keeps
 * its edition and its device: no other call changes them. Returns 0 or 9; the count is 0. */
rb_result rb_setup(uint8_t *block, size_t block_len, uint32_t ports, uint32_t edition, uint32_t device, const uint8_t *address, size_t address_len);

/* Answers one request: the answer stands at the start of the room and has `count` octets; the room's other octets keep theirs. A set without a fault
 * changes the block. Returns 0 to 8; a request that is answered with a fault returns 0 too, and the fault stands in the answer. */
rb_result rb_answer(uint8_t *block, size_t block_len, const uint8_t *request, size_t request_len, uint8_t *room, size_t room_len);

/* Resets a bridge: static rows of status 4 (deleteOnReset) go, the others close up in order, and all else stays. A second reset changes nothing, and none
 * changes a source-routing bridge. Returns 0 or 3; the count is 0. */
rb_result rb_reset(uint8_t *block, size_t block_len);

/* Converts a timer from hundredths of a second (0 to 25599) to 256ths, rounded down, or back (0 to 65535), rounded up; the count is the converted value.
 * Returns 0 or 10. */
rb_result rb_to_256ths(uint32_t hundredths);
rb_result rb_to_hundredths(uint32_t ticks);

/* Feeds one event to a run: `cases` is its list, at most RB_CASES_MAX records with ids strictly ascending, and `ended` its mark, 0 or 1. A new run has
 * all states RB_NOT_RUN and the mark 0. An accepted event changes the state of one case at most; an accepted end sets the mark. Returns 0 or 11 to 15,
 * judged 15, 14, 11, 12, 13; count and offset are 0. */
rb_result rb_tally_event(rb_case *cases, size_t count, uint8_t *ended, uint32_t event, uint32_t id);

/* Counts the classes of a run, ended or not. Returns 0 or 15. */
rb_report rb_tally_report(const rb_case *cases, size_t count, uint8_t ended);

/* Takes octets of a chunk, which may have none, from a serial console: messages of at most 1,472 octets, each in a frame of 7F (hex), 00, 02, its length
 * in two octets, and itself. `state` has 1,477 octets, all 0 for a stream that begins; between two calls the host keeps it as it is (docs/LAYOUT.md).
 * A call stops after one message: it stands at the start of the room, and the octets behind the first `taken` of the chunk are offered again.
 * Returns 0, 1, 21 or 22. Octets up to the wrong one are taken with 21 and 22, and the state keeps the number: later calls take none and return it
 * again, until a reset. 1, and 21 for a saved state that no stream leaves or that has another length, take none and write no octet. */
rb_console rb_console_take(uint8_t *state, size_t state_len, const uint8_t *chunk, size_t chunk_len, uint8_t *room, size_t room_len);

/* Makes a state fresh, whatever it held. Returns 0, or 21 where it has not 1,477 octets; the count is 0. */
rb_result rb_console_reset(uint8_t *state, size_t state_len);

/* A growing table: VLANs and static rows, which a transparent bridge has, and port pairs, which a source-routing one has. */
enum rb_table { RB_TABLE_VLAN = 1, RB_TABLE_STATIC = 2, RB_TABLE_PORT_PAIRS = 3 };

/* What a check of a batch returns. Accepted: all 0. */
typedef struct {
    uint32_t number;  /* 0, 3, 4 to 8, 21, 22 or 23 */
    uint32_t message; /* with 4 to 8: which message, from 1 */
    uint32_t offset;  /* with 4 to 8: where in that message, as rb_answer tells it */
    uint32_t first;   /* the first pair of messages that name a common row or scalar, from 1; first is below second */
    uint32_t second;
    uint32_t table;   /* where there is no such pair: the first table, one of rb_table, that has not room for all rows that are named */
} rb_batch;

/* Checks whether set messages may be played on the block in any order: each can be read, no two name a common row or scalar (the three bridge timers count as
 * one), and in each growing table the live rows and all absent rows that are named are at most 256, or 64 port pairs. The batch is up to 64 messages, each in
 * a frame as the serial console has it; it may be empty. Returns 0, 3, 4 to 8 (7 for a message that is no set), 21, 22 or 23, judged 3 first and then from
 * left to right. Nothing is written. An accepted batch is answered with the same octets in every order, and leaves the same block. */
rb_batch rb_check_batch(const uint8_t *block, size_t block_len, const uint8_t *batch, size_t batch_len);

/* Whose walk it is. */
enum rb_side { RB_REFERENCE = 1, RB_DEVICE = 2 };

/* What a comparison of two walks returns. After a refusal, `side` is the walk at fault (with 25 the reference's), `offset` goes with 4 to 6 and counts from
 * that walk's first octet, and all else is 0. */
typedef struct {
    uint32_t number;         /* 0, 4, 5, 6, 24 or 25 */
    uint32_t side;           /* one of rb_side: whose tail it is */
    uint64_t offset;         /* 0 unless the number is 4, 5 or 6 */
    uint64_t tail_at;        /* where in that walk the unread tail starts */
    uint64_t tail_len;       /* how many octets it has */
    uint64_t reference_only; /* entries of each kind */
    uint64_t switch_only;
    uint64_t differing;
} rb_walks;

/* The kind of an entry. */
enum rb_walk_kind { RB_REFERENCE_ONLY = 1, RB_DEVICE_ONLY = 2, RB_DIFFERING = 3 };

/* Where the parts of an entry stand: kind, members of the reference's port set and of the device's, and the first port that is in one of them only, an
 * octet each (the last three are 0 unless both contents are port sets); then the offset of the binding in the reference walk and in the device walk, eight
 * octets each, most significant first, 0 where it is not in that walk. */
enum rb_walk_entry {
    RB_ENTRY_KIND = 0,
    RB_ENTRY_REFERENCE_MEMBERS = 1,
    RB_ENTRY_DEVICE_MEMBERS = 2,
    RB_ENTRY_FIRST_PORT = 3,
    RB_ENTRY_REFERENCE_AT = 4,
    RB_ENTRY_DEVICE_AT = 12
};

/* Compares two walks: bindings (fields 10 hex) one after the other with contents 21 to 24, their names strictly ascending. The list gets an entry for each
 * instance that is in one walk only or whose contents differ, ascending by name; its other octets keep theirs. The comparison stops where one walk is used
 * up: what is left of the other is the tail, which is not listed; where both end together the tail is the reference's and empty. Strings of up to 8 octets
 * under a ports column are port sets: they differ when their members do. Returns 0, 4 to 6, 24 or 25; a refusal writes no octet. The walks and the list do
 * not overlap; the two walks may be one. */
rb_walks rb_compare_walks(const uint8_t *reference, size_t reference_len, const uint8_t *device, size_t device_len, uint8_t *list, size_t list_len);

/* What reading a datagram returns: one of rb_number, the length of the message in the room, and where the community stands in the datagram. All but the
 * number are 0 unless the number is 0. */
typedef struct {
    uint32_t number;
    uint32_t count;
    uint32_t community_at;
    uint32_t community_len;
} rb_datagram;

/* Reads an SNMPv2c datagram (RFC 1901, RFC 3416, BER with any definite length) into a message at the start of the room; the room's other octets keep
 * theirs. rb_from_datagram takes get, get-next and set; rb_from_captured takes responses too. A room under 1,472 octets is 1. Returns 0, 1, 7, 8 or 16
 * to 20; what is refused writes nothing. What rb_from_datagram reads is a message that rb_answer refuses only with 1 or 3. */
rb_datagram rb_from_datagram(const uint8_t *datagram, size_t datagram_len, uint8_t *room, size_t room_len);
rb_datagram rb_from_captured(const uint8_t *datagram, size_t datagram_len, uint8_t *room, size_t room_len);

/* Writes a response as an SNMPv2c datagram in the shortest form, with the community that it goes back to; the datagram stands at the start of the room
 * and has `count` octets. Returns 0, 1, 4 to 8 with the offset in the message (7 for a message that is no response), 19 or 20. */
rb_result rb_to_datagram(const uint8_t *message, size_t message_len, const uint8_t *community, size_t community_len, uint8_t *room, size_t room_len);

#ifdef __cplusplus
}
#endif

#endif
