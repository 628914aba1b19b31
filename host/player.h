/* Playing: each command is given to the library, and its answer is printed and compared. */
#ifndef HOST_PLAYER_H
#define HOST_PLAYER_H

#include "bridge.h"
#include "progress.h"
#include "script.h"

enum play_mode {
    PLAY_ALL,   /* print every command with its answer */
    PLAY_QUIET, /* print differences only */
    PLAY_FILL,  /* print the file, with answers where it expects none */
    PLAY_SILENT /* print nothing, and count */
};

struct player;

/* Somebody who is asked the same beside the library, and sees its reply; the answer stands in the bridge's room. */
typedef void witness(struct player *player, const struct octets *request, const struct reply *reply);

struct player {
    enum play_mode mode;
    size_t cases;
    size_t commands;
    size_t compared;    /* expected lines that were compared */
    size_t differences; /* of those, and flaws of calls */
    witness *witness;   /* or NULL */
    bool stopped;       /* by the witness: nothing more is asked */
    struct line line;   /* the command that is played */
    size_t differed_at; /* the line of the first command of a case that differed, or 0 */
    struct progress progress;
    struct bridge bridge;
};

/* Plays a script that was checked. False where the output cannot be written: nothing is played after that. */
bool player_play(struct player *player, const struct script *script);

/* Plays from a place on, up to the next case or the end. */
void player_play_case(struct player *player, const struct script *script, struct place place);

#endif
