/* A case file: its text is kept, and its lines are read from there, once to check them all and once to play them. */
#ifndef HOST_SCRIPT_H
#define HOST_SCRIPT_H

#include <sys/types.h>

#include "text.h"

struct script {
    const char *file; /* its name, or "-" */
    char *text;
    size_t size;
    dev_t device; /* with the inode: which file it is */
    ino_t inode;
    size_t commands; /* that call the library */
    size_t cases;
    size_t expected; /* lines that expect an answer */
};

/* The last case id so far: ids ascend. */
struct ids {
    bool any;
    uint32_t last;
};

/* Where the next line starts, and its number from 1. */
struct place {
    size_t at;
    size_t number;
};

/* A line that is neither blank nor a comment. */
struct line {
    struct text text; /* without blanks at both ends, and without the arrow */
    size_t number;
    bool expected; /* it starts with the arrow '->' */
};

#define SCRIPT_START ((struct place){.at = 0, .number = 1})

/* Reads a whole file, or standard input for "-". */
bool script_load(struct script *script, const char *file, struct complaint *why);

/* True where both are the same file, by whatever names. */
bool script_is_same(const struct script *a, const struct script *b);

/* Reads every line, counts commands and cases, and tells every error on standard error as FILE:LINE: reason. Returns
 * how many there are. */
size_t script_check(struct script *script, struct ids *ids);

/* Takes the next line that says something; false at the end. */
bool script_line(const struct script *script, struct place *place, struct line *line);

void script_free(struct script *script);

#endif
