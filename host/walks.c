/* Compares the reference's walk with a device's, or writes the reference's.
 *
 *   walks REFERENCE DEVICE       two files of bindings in the message form, ascending
 *   walks --of CASES WALK        plays a file of cases, and writes the walk of the bridge that they leave
 *
 * Status: 0 the walks are the same, 1 they differ, 2 one of them cannot be read. */
#include <errno.h>
#include <inttypes.h>
#include <stdio.h>
#include <stdlib.h>
#include <string.h>

#include "codes.h"
#include "player.h"
#include "reference_walk.h"
#include "script.h"
#include "walk_report.h"

enum { STATUS_SAME = 0, STATUS_DIFFERED = 1, STATUS_UNREADABLE = 2 };

#define BINDING_MIN 17u /* octets of a binding with 2 sub-ids and an empty string */

static const char usage[] = "usage: walks REFERENCE DEVICE    compare two walks\n"
                            "       walks --of CASES WALK     play cases and write the bridge's walk\n";

static int unreadable(const char *file, const char *reason)
{
    fprintf(stderr, "%s: %s\n", file, reason);
    return STATUS_UNREADABLE;
}

static int refused(const rb_walks *walks, const char *file)
{
    const char *side = walks->side == RB_DEVICE ? "device" : "reference";
    const char *name = refusal_name(walks->number);

    fprintf(stderr, "%s: refused %" PRIu32 " (%s), %s walk", file, walks->number, name == NULL ? "no name" : name, side);
    if (walks->number <= RB_LENGTH_WRONG) {
        fprintf(stderr, ", offset %" PRIu64, walks->offset);
    }
    fputc('\n', stderr);
    return STATUS_UNREADABLE;
}

/* Two files that were loaded. */
static int compare(const struct script *reference, const struct script *device)
{
    struct walk ours = {(const uint8_t *)reference->text, reference->size};
    struct walk theirs = {(const uint8_t *)device->text, device->size};
    /* No more entries than bindings, so 25 cannot arise. */
    size_t size = RB_ENTRY_SIZE * ((ours.count + theirs.count) / BINDING_MIN + 1);
    uint8_t *list = malloc(size);
    rb_walks walks;
    bool same;

    if (list == NULL) {
        return unreadable("walks", "no memory");
    }
    walks = rb_compare_walks(ours.octets, ours.count, theirs.octets, theirs.count, list, size);
    if (walks.number != RB_ANSWERED) {
        free(list);
        return refused(&walks, walks.side == RB_DEVICE ? device->file : reference->file);
    }
    walk_report(&ours, &theirs, list, &walks);
    free(list);
    same = walks.reference_only + walks.switch_only + walks.differing == 0 && walks.tail_len == 0;
    return same ? STATUS_SAME : STATUS_DIFFERED;
}

static int compare_files(const char *reference, const char *device)
{
    struct script scripts[2] = {{0}, {0}};
    struct complaint why;
    int status;

    if (!script_load(&scripts[0], reference, &why)) {
        status = unreadable(reference, why.words);
    } else if (!script_load(&scripts[1], device, &why)) {
        status = unreadable(device, why.words);
    } else {
        status = compare(&scripts[0], &scripts[1]);
    }
    script_free(&scripts[0]);
    script_free(&scripts[1]);
    return status;
}

static int write_walk(struct bridge *bridge, const char *walk)
{
    FILE *file = fopen(walk, "wb");
    struct complaint why;
    bool written;

    if (file == NULL) {
        return unreadable(walk, strerror(errno));
    }
    written = walk_of(bridge, file, &why);
    if (fclose(file) != 0 && written) {
        written = complain(&why, "the walk cannot be written: %s", strerror(errno));
    }
    return written ? STATUS_SAME : unreadable(walk, why.words);
}

/* Plays the cases quietly: only what differs from the expected answers is printed, and then no walk is written. */
static int of_cases(const char *cases, const char *walk)
{
    static struct player player = {.mode = PLAY_QUIET};
    struct script script = {0};
    struct ids ids = {.any = false};
    struct complaint why;
    int status = STATUS_UNREADABLE;

    if (!script_load(&script, cases, &why)) {
        status = unreadable(cases, why.words);
    } else if (script_check(&script, &ids) == 0) {
        if (!player_play(&player, &script)) {
            status = unreadable("walks", "the output cannot be written");
        } else if (player.differences > 0) {
            status = STATUS_DIFFERED;
        } else if (player.bridge.ports == 0) {
            status = unreadable(cases, "no bridge is set up");
        } else {
            status = write_walk(&player.bridge, walk);
        }
    }
    script_free(&script);
    return status;
}

int main(int argc, char **argv)
{
    int status;

    if (argc == 4 && strcmp(argv[1], "--of") == 0) {
        status = of_cases(argv[2], argv[3]);
    } else if (argc == 3 && argv[1][0] != '-') {
        status = compare_files(argv[1], argv[2]);
    } else if (argc == 2 && strcmp(argv[1], "--help") == 0) {
        fputs(usage, stdout);
        status = STATUS_SAME;
    } else {
        fputs(usage, stderr);
        return STATUS_UNREADABLE;
    }
    if (fflush(stdout) != 0 || ferror(stdout)) {
        return unreadable("walks", "the output cannot be written");
    }
    return status;
}
