#define _POSIX_C_SOURCE 200809L
#include "progress.h"

#include <stdio.h>
#include <unistd.h>

#define BETWEEN 0.25 /* seconds from one update to the next */

void progress_start(struct progress *progress, size_t total, bool quiet)
{
    *progress = (struct progress){.total = total};
    progress->on = isatty(STDERR_FILENO) && (quiet || !isatty(STDOUT_FILENO));
    clock_gettime(CLOCK_MONOTONIC, &progress->last);
}

void progress_step(struct progress *progress, size_t done)
{
    struct timespec now;
    double passed;

    if (!progress->on) {
        return;
    }
    clock_gettime(CLOCK_MONOTONIC, &now);
    passed = (double)(now.tv_sec - progress->last.tv_sec) + (double)(now.tv_nsec - progress->last.tv_nsec) / 1e9;
    if (passed >= BETWEEN || progress->cleared) {
        progress->last = now;
        progress->shown = true;
        progress->cleared = false;
        fprintf(stderr, "\r%zu of %zu commands", done, progress->total);
        fflush(stderr);
    }
}

void progress_clear(struct progress *progress)
{
    if (progress->shown) {
        progress->shown = false;
        progress->cleared = true;
        fputs("\r\033[K", stderr);
        fflush(stderr);
    }
}
