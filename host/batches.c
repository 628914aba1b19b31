/* Says which set commands of case files may be played in any order, for a window that is cut short.
 *
 *   batches FILE...       a FILE may be - for standard input; a manifest stands for its files
 *
 * A batch is the sets of one case, as long as nothing but sets changes the block between them; it is checked for the block before the first of them. Gets and
 * walks are not looked at. docs/NIGHT.md tells what is printed. */
#include <stdio.h>
#include <string.h>

#include "codes.h"
#include "hexdump.h"
#include "message.h"
#include "player.h"
#include "refbridge.h"
#include "submission.h"

enum {
    STATUS_ANY_ORDER = 0,  /* every batch */
    STATUS_KEEP = 1,       /* some batch has an order to keep, or a message that cannot be read */
    STATUS_UNREADABLE = 2, /* a file or an argument; nothing was checked */
    STATUS_NOTHING = 3,    /* there is no set */
    STATUS_LOST = 4        /* output was lost */
};

/* A frame is 7F, 00, 02, the message's length in two octets, and the message. One message more than a batch can have shows that there are too many. */
enum { KEPT_MAX = RB_BATCH_MAX + 1, SHOWN_MAX = 100 };

static const char usage[] = "usage: batches FILE...    (FILE - is standard input; a manifest stands for its files)\n"
                            "status: 0 any order, 1 some order must be kept, 2 unreadable, 3 no set, 4 output lost\n";

/* The sets that are gathered, and what was said of those before. */
struct gathering {
    struct player player; /* first, so that the witness finds the gathering */
    const struct script *script;
    size_t batches;
    size_t movable;                /* batches that may be played in any order */
    size_t count;                  /* sets of this batch; the first KEPT_MAX are kept */
    size_t cases;                  /* how many cases had started at the first of them */
    struct line lines[KEPT_MAX];   /* where they stand */
    size_t starts[KEPT_MAX];       /* of the messages in the octets */
    size_t length;                 /* of the octets */
    uint8_t before[RB_BLOCK_SIZE]; /* the block before the first of them */
    uint8_t after[RB_BLOCK_SIZE];  /* and after the last */
    uint8_t octets[KEPT_MAX * (RB_FRAME_HEAD + OCTETS_MAX)];
};

static struct gathering gathering;

static const char *table_name(uint32_t table)
{
    static const char *const names[] = {
        [RB_TABLE_VLAN] = "VLAN", [RB_TABLE_STATIC] = "static", [RB_TABLE_PORT_PAIRS] = "port pair"};

    return table < sizeof names / sizeof names[0] ? names[table] : "unknown";
}

/* The start of a command, as much as a terminal shows of it. */
static void print_line(const struct gathering *batch, size_t message)
{
    const struct line *line = &batch->lines[message - 1];
    int length = (int)(line->text.end - line->text.at);

    printf("    %zu: %.*s%s\n", line->number, length < SHOWN_MAX ? length : SHOWN_MAX, line->text.at, length < SHOWN_MAX ? "" : " ..");
}

static void print_refused(const struct gathering *batch, rb_batch is)
{
    const char *name = refusal_name(is.number);

    if (is.message == 0) {
        printf("cannot be checked: refused %u (%s)\n", (unsigned)is.number, name);
        return;
    }
    size_t start = batch->starts[is.message - 1];
    size_t end = is.message < batch->count ? batch->starts[is.message] - RB_FRAME_HEAD : batch->length;

    printf("line %zu cannot be read: refused %u (%s) at %u    # ", batch->lines[is.message - 1].number, (unsigned)is.number, name, (unsigned)is.offset);
    broken_print(stdout, batch->octets + start, end - start, is.offset);
    putchar('\n');
}

static void print_verdict(const struct gathering *batch, rb_batch is)
{
    if (is.number != RB_ANSWERED) {
        print_refused(batch, is);
    } else if (is.first != 0) {
        printf("keep the order of lines %zu and %zu: both name one row or scalar\n", batch->lines[is.first - 1].number, batch->lines[is.second - 1].number);
        print_line(batch, is.first);
        print_line(batch, is.second);
    } else if (is.table != 0) {
        printf("keep the order: the %s table has not room for every row that they name\n", table_name(is.table));
    } else {
        printf("any order\n");
    }
}

/* Checks the sets that were gathered, and starts anew. */
static void check_batch(struct gathering *batch)
{
    static const rb_batch accepted = {0};

    if (batch->count == 0) {
        return;
    }
    rb_batch is = rb_check_batch(batch->before, sizeof batch->before, batch->octets, batch->length);

    printf("%s:%zu: %zu %s: ", batch->script->file, batch->lines[0].number, batch->count, batch->count == 1 ? "set" : "sets");
    print_verdict(batch, is);
    batch->batches++;
    batch->movable += memcmp(&is, &accepted, sizeof is) == 0;
    batch->count = 0;
    batch->length = 0;
}

static void keep(struct gathering *batch, const struct octets *request)
{
    const uint8_t head[RB_FRAME_HEAD] = {0x7F, 0, 2, (uint8_t)(request->count >> 8), (uint8_t)request->count};

    if (batch->count < KEPT_MAX) {
        batch->lines[batch->count] = batch->player.line;
        batch->starts[batch->count] = batch->length + RB_FRAME_HEAD;
        memcpy(batch->octets + batch->length, head, RB_FRAME_HEAD);
        memcpy(batch->octets + batch->length + RB_FRAME_HEAD, request->at, request->count);
        batch->length += RB_FRAME_HEAD + request->count;
    }
    batch->count++;
}

/* Takes a set that was played on a whole block. Another case, or a block that something else changed, starts another batch. */
static void gather(struct player *player, const struct octets *request, const struct reply *reply)
{
    struct gathering *batch = (struct gathering *)player;
    const struct bridge *bridge = &player->bridge;

    (void)reply;
    if (request->count <= KIND_AT || request->at[KIND_AT] != RB_SET || bridge->block_lent != RB_BLOCK_SIZE || bridge->room_lent < RB_MESSAGE_MAX) {
        return;
    }
    if (batch->cases != player->cases || memcmp(bridge->before, batch->after, RB_BLOCK_SIZE) != 0) {
        check_batch(batch);
    }
    if (batch->count == 0) {
        batch->cases = player->cases;
        memcpy(batch->before, bridge->before, RB_BLOCK_SIZE);
    }
    keep(batch, request);
    memcpy(batch->after, bridge->block, RB_BLOCK_SIZE);
}

static int verdict(const struct gathering *batch)
{
    if (batch->batches == 0) {
        fputs("batches: there is no set\n", stderr);
        return STATUS_NOTHING;
    }
    printf("%zu batches, %zu in any order\n", batch->batches, batch->movable);
    return batch->movable == batch->batches ? STATUS_ANY_ORDER : STATUS_KEEP;
}

static int check_all(const struct submission *submission)
{
    gathering.player.mode = PLAY_SILENT;
    gathering.player.witness = gather;
    for (size_t i = 0; i < submission->count; i++) {
        gathering.script = &submission->scripts[i];
        player_play(&gathering.player, gathering.script);
        check_batch(&gathering);
    }
    int status = verdict(&gathering);

    return fflush(stdout) != 0 || ferror(stdout) ? STATUS_LOST : status;
}

int main(int argc, char **argv)
{
    struct submission submission;
    int status = STATUS_UNREADABLE;

    if (argc == 2 && strcmp(argv[1], "--help") == 0) {
        return fputs(usage, stdout) >= 0 && fflush(stdout) == 0 ? STATUS_ANY_ORDER : STATUS_LOST;
    }
    if (argc < 2 || (argv[1][0] == '-' && argv[1][1] != '\0')) {
        fputs(usage, stderr);
        return STATUS_UNREADABLE;
    }
    if (submission_read(&submission, argv + 1, (size_t)argc - 1) == 0) {
        status = check_all(&submission);
    }
    submission_free(&submission);
    return status;
}
