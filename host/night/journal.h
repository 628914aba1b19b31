/* The journal of a night: append-only text lines SEQUENCE TIME EVENT CASE EVIDENCE CRC. The CRC is of all before it. */
#ifndef NIGHT_JOURNAL_H
#define NIGHT_JOURNAL_H

#include "text.h"

struct entry {
    uint64_t sequence;
    int64_t time; /* seconds since 1970 */
    struct text event;
    uint32_t id;      /* of the case; 0 where the event is of none */
    struct text rest; /* the evidence */
};

struct journal {
    const char *file;
    int out; /* or -1, where it is only read */
    char *text;
    size_t size;       /* of the whole lines */
    size_t found;      /* octets that the file had when it was read */
    uint64_t sequence; /* of the last line */
};

/* Reads a journal and judges every line. A last line without its end is torn, and dropped; anything else that is
 * damaged is refused. */
bool journal_read(struct journal *journal, const char *file, struct complaint *why);

/* Takes the next entry from `at` on; false at the end. */
bool journal_entry(const struct journal *journal, size_t *at, struct entry *entry);

/* Makes a new journal that is read and empty; its first lines stand in the file only when journal_publish is done. */
bool journal_create(struct journal *journal, const char *file, struct complaint *why);
bool journal_publish(struct journal *journal, struct complaint *why);

/* Opens a journal that was read to append to it, and cuts a torn line off. One that another night holds, or has written
 * since it was read, is refused. */
bool journal_continue(struct journal *journal, struct complaint *why);

/* Appends a line; `evidence` has no line feed. */
bool journal_append(struct journal *journal, const char *event, uint32_t id, const char *evidence,
                    struct complaint *why);

/* What was appended is on the disk after this. */
bool journal_sync(struct journal *journal, struct complaint *why);

void journal_close(struct journal *journal);

#endif
