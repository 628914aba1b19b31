/* What a journal says of a night: the tally, by the library's own judgement of each event, and what is reported beside.
 */
#ifndef NIGHT_RECORD_H
#define NIGHT_RECORD_H

#include "journal.h"
#include "refbridge.h"

struct history {
    struct text title;
    struct text evidence; /* of the verdict; its `at` is NULL before */
    int64_t began;
    int64_t ended;
};

struct record {
    struct journal journal;
    rb_case *cases;
    struct history *history;
    size_t count;
    uint8_t ended;
    struct text submission;                    /* SHA-256 of the manifest */
    struct text archive;                       /* and of the library's archive */
    uint32_t runs;                             /* blocks of request ids that were begun */
    int64_t first, last;                       /* times of the first and the last line */
    size_t late, strange, foreign, unreadable; /* datagrams that were dropped */
    struct text reason;                        /* why the last run stopped; its `at` is NULL where none did */
};

/* Reads a journal and replays it. Where a line is damaged, or the library refuses an event, the journal is refused. */
bool record_read(struct record *record, const char *file, struct complaint *why);

/* Appends an event and gives it to the tally. */
bool record_event(struct record *record, uint32_t event, uint32_t id, const char *evidence, struct complaint *why);

/* The place of a case in the list, or the list's length. */
size_t record_place(const struct record *record, uint32_t id);

/* The case that runs, or NULL. */
const rb_case *record_running(const struct record *record);

rb_report record_report(const struct record *record);

void record_free(struct record *record);

#endif
