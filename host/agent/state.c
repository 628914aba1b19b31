#define _POSIX_C_SOURCE 200809L
#include "state.h"

#include <errno.h>
#include <fcntl.h>
#include <stdio.h>
#include <string.h>
#include <unistd.h>

#define NAME_MAX_LENGTH 4096

/* A legal block answers an empty request as one that is cut, not as a block that is not legal. */
static bool is_legal(uint8_t *block)
{
    static uint8_t room[RB_MESSAGE_MAX];
    const uint8_t nothing = 0;

    return rb_answer(block, RB_BLOCK_SIZE, &nothing, 0, room, RB_MESSAGE_MAX).number != RB_BLOCK_NOT_LEGAL;
}

static bool load(struct state *state, FILE *stream, struct complaint *why)
{
    size_t got = fread(state->block, 1, RB_BLOCK_SIZE, stream);
    bool whole = got == RB_BLOCK_SIZE && getc(stream) == EOF && !ferror(stream);

    fclose(stream);
    if (!whole || !is_legal(state->block)) {
        return complain(why, "%s holds no legal block", state->file);
    }
    return true;
}

bool state_start(struct state *state, const char *file, const struct command *bridge, struct complaint *why)
{
    const struct octets *address = &bridge->octets;
    FILE *stream = file == NULL ? NULL : fopen(file, "rb");

    state->file = file;
    if (stream != NULL) {
        return load(state, stream, why);
    }
    if (file != NULL && errno != ENOENT) {
        return complain(why, "%s cannot be opened: %s", file, strerror(errno));
    }
    if (rb_setup(state->block, RB_BLOCK_SIZE, bridge->number, bridge->edition, bridge->device, address->at,
                 address->count).number != RB_ANSWERED) {
        return complain(why, "a bridge has 1 to %u ports, an address of %u octets, edition %d or %d, and device %d or %d",
                        RB_PORTS_MAX, RB_ADDRESS_SIZE, RB_EDITION_OLD, RB_EDITION_NEW, RB_DEVICE_TRANSPARENT,
                        RB_DEVICE_SOURCE_ROUTING);
    }
    return state_keep(state, why);
}

static bool write_whole(int out, const uint8_t *octets, size_t count)
{
    size_t done = 0;

    while (done < count) {
        ssize_t wrote = write(out, octets + done, count - done);

        if (wrote < 0) {
            return false;
        }
        done += (size_t)wrote;
    }
    return fsync(out) == 0;
}

bool state_keep(const struct state *state, struct complaint *why)
{
    char beside[NAME_MAX_LENGTH];
    int out;
    bool wrote;

    if (state->file == NULL) {
        return true;
    }
    if (snprintf(beside, sizeof beside, "%s.new", state->file) >= (int)sizeof beside) {
        return complain(why, "the state file's name is too long");
    }
    out = open(beside, O_WRONLY | O_CREAT | O_TRUNC, 0644);
    wrote = out >= 0 && write_whole(out, state->block, RB_BLOCK_SIZE);
    if (out >= 0 && close(out) != 0) {
        wrote = false;
    }
    if (!wrote || rename(beside, state->file) != 0) {
        return complain(why, "%s cannot be written: %s", state->file, strerror(errno));
    }
    return true;
}
