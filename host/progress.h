/* Progress on the terminal, for long files: how many commands have been played. */
#ifndef HOST_PROGRESS_H
#define HOST_PROGRESS_H

#include <stdbool.h>
#include <stddef.h>
#include <time.h>

struct progress {
    bool on;
    bool shown;           /* a line of progress stands on the terminal */
    bool cleared;         /* it was removed for something else, and comes again with the next command */
    struct timespec last; /* when it was written */
    size_t total;
};

/* On where standard error is a terminal and what is played is not printed on one. */
void progress_start(struct progress *progress, size_t total, bool quiet);

/* Writes the count, at most four times a second, or where it was removed. */
void progress_step(struct progress *progress, size_t done);

/* Removes the line, before something else is printed. */
void progress_clear(struct progress *progress);

#endif
