#define _POSIX_C_SOURCE 200809L
#include "journal.h"

#include <errno.h>
#include <fcntl.h>
#include <inttypes.h>
#include <stdio.h>
#include <stdlib.h>
#include <string.h>
#include <sys/stat.h>
#include <time.h>
#include <unistd.h>

#include "crc.h"

#define LINE_MAX_LENGTH 16384
#define CRC_DIGITS 8
#define NAME_MAX_LENGTH 4096

static bool load(struct journal *journal, struct complaint *why)
{
    FILE *stream = fopen(journal->file, "rb");
    struct stat status;
    size_t got;

    if (stream == NULL || fstat(fileno(stream), &status) != 0) {
        complain(why, "%s cannot be opened: %s", journal->file, strerror(errno));
        if (stream != NULL) {
            fclose(stream);
        }
        return false;
    }
    journal->text = malloc((size_t)status.st_size + 1);
    got = journal->text == NULL ? 0 : fread(journal->text, 1, (size_t)status.st_size, stream);
    fclose(stream);
    if (journal->text == NULL || got != (size_t)status.st_size) {
        return complain(why, "%s cannot be read", journal->file);
    }
    journal->found = got;
    while (got > 0 && journal->text[got - 1] != '\n') {
        got--; /* a torn line */
    }
    journal->size = got;
    return true;
}

/* Reads the fields of a line; false where it is damaged. */
static bool read_line(struct text line, struct entry *entry)
{
    char wanted[CRC_DIGITS + 1];
    uint64_t time, id;
    struct text end = line;

    if (line.end - line.at < CRC_DIGITS + 1) {
        return false;
    }
    end.at = line.end - CRC_DIGITS;
    snprintf(wanted, sizeof wanted, "%08" PRIX32, crc32_of(line.at, (size_t)(end.at - line.at)));
    if (!text_is(end, wanted)) {
        return false;
    }
    line.end = end.at - 1; /* the blank before the CRC */
    if (!text_number(text_word(&line, ""), UINT64_MAX / 10, &entry->sequence) ||
        !text_number(text_word(&line, ""), INT64_MAX / 10, &time)) {
        return false;
    }
    entry->time = (int64_t)time;
    entry->event = text_word(&line, "");
    if (!text_number(text_word(&line, ""), UINT32_MAX, &id)) {
        return false;
    }
    entry->id = (uint32_t)id;
    text_skip_blanks(&line);
    entry->rest = line;
    return true;
}

bool journal_entry(const struct journal *journal, size_t *at, struct entry *entry)
{
    struct text line = {journal->text + *at, NULL};

    if (*at == journal->size) {
        return false;
    }
    line.end = memchr(line.at, '\n', journal->size - *at);
    *at = (size_t)(line.end - journal->text) + 1;
    return read_line(line, entry);
}

bool journal_read(struct journal *journal, const char *file, struct complaint *why)
{
    struct entry entry;
    size_t at = 0;

    *journal = (struct journal){.file = file, .out = -1};
    if (!load(journal, why)) {
        return false;
    }
    while (at < journal->size) {
        if (!journal_entry(journal, &at, &entry) || entry.sequence != journal->sequence + 1) {
            return complain(why, "%s is damaged at line %" PRIu64, file, journal->sequence + 1);
        }
        journal->sequence = entry.sequence;
    }
    return true;
}

static void beside(const struct journal *journal, char name[NAME_MAX_LENGTH])
{
    snprintf(name, NAME_MAX_LENGTH, "%s.new", journal->file);
}

/* Two nights never write one journal. */
static bool hold(struct journal *journal, struct complaint *why)
{
    struct flock lock = {.l_type = F_WRLCK, .l_whence = SEEK_SET};

    if (fcntl(journal->out, F_SETLK, &lock) != 0) {
        return complain(why, "%s is held by another night", journal->file);
    }
    return true;
}

/* Whether the name is still that of the open file, and the journal is not made yet. */
static bool is_own(const struct journal *journal, const char *name)
{
    struct stat held;
    struct stat named;

    return fstat(journal->out, &held) == 0 && stat(name, &named) == 0 && held.st_dev == named.st_dev &&
           held.st_ino == named.st_ino && access(journal->file, F_OK) != 0;
}

/* Only who holds the file beside the journal empties it and gives it the journal's name, so that of several nights that
 * make one journal at a time one does. */
bool journal_create(struct journal *journal, const char *file, struct complaint *why)
{
    char name[NAME_MAX_LENGTH];

    *journal = (struct journal){.file = file, .out = -1};
    if (strlen(file) + sizeof ".new" > NAME_MAX_LENGTH) {
        return complain(why, "the journal's name is too long");
    }
    beside(journal, name);
    journal->out = open(name, O_WRONLY | O_CREAT | O_APPEND, 0644);
    if (journal->out < 0) {
        return complain(why, "%s cannot be written: %s", name, strerror(errno));
    }
    if (!hold(journal, why)) {
        return false;
    }
    if (!is_own(journal, name)) {
        return complain(why, "%s was made by another night", file);
    }
    return ftruncate(journal->out, 0) == 0 || complain(why, "%s cannot be written: %s", name, strerror(errno));
}

/* The folder's entry of the journal is on the disk after this. */
static bool sync_folder(const char *file)
{
    char name[NAME_MAX_LENGTH];
    char *slash;
    int folder;
    bool done;

    snprintf(name, sizeof name, "%s", file);
    slash = strrchr(name, '/');
    if (slash == NULL) {
        strcpy(name, ".");
    } else {
        slash[slash == name ? 1 : 0] = '\0';
    }
    folder = open(name, O_RDONLY);
    done = folder >= 0 && fsync(folder) == 0;
    if (folder >= 0) {
        close(folder);
    }
    return done;
}

bool journal_publish(struct journal *journal, struct complaint *why)
{
    char name[NAME_MAX_LENGTH];

    beside(journal, name);
    if (!journal_sync(journal, why)) {
        return false;
    }
    return (rename(name, journal->file) == 0 && sync_folder(journal->file)) ||
           complain(why, "%s cannot be written: %s", journal->file, strerror(errno));
}

/* What another night appended after the reading would be cut off, and its cases started again. */
static bool is_as_read(const struct journal *journal, struct complaint *why)
{
    struct stat status;

    return (fstat(journal->out, &status) == 0 && (size_t)status.st_size == journal->found) ||
           complain(why, "%s was written by another night while it was read", journal->file);
}

bool journal_continue(struct journal *journal, struct complaint *why)
{
    journal->out = open(journal->file, O_WRONLY | O_APPEND);
    if (journal->out < 0) {
        return complain(why, "%s cannot be written: %s", journal->file, strerror(errno));
    }
    if (!hold(journal, why) || !is_as_read(journal, why)) {
        return false;
    }
    return ftruncate(journal->out, (off_t)journal->size) == 0 ||
           complain(why, "%s cannot be cut: %s", journal->file, strerror(errno));
}

bool journal_append(struct journal *journal, const char *event, uint32_t id, const char *evidence,
                    struct complaint *why)
{
    static char line[LINE_MAX_LENGTH];
    int length = snprintf(line, sizeof line - CRC_DIGITS - 2, "%" PRIu64 " %lld %s %" PRIu32 " %s",
                          journal->sequence + 1, (long long)time(NULL), event, id, evidence);

    if (length < 0 || length >= (int)sizeof line - CRC_DIGITS - 3) {
        length = (int)sizeof line - CRC_DIGITS - 4; /* evidence that is too long is cut */
    }
    line[length++] = ' ';
    length += snprintf(line + length, CRC_DIGITS + 2, "%08" PRIX32 "\n", crc32_of(line, (size_t)length));
    if (write(journal->out, line, (size_t)length) != length) {
        return complain(why, "%s cannot be written: %s", journal->file, strerror(errno));
    }
    journal->sequence++;
    return true;
}

bool journal_sync(struct journal *journal, struct complaint *why)
{
    return fsync(journal->out) == 0 || complain(why, "%s cannot be written: %s", journal->file, strerror(errno));
}

void journal_close(struct journal *journal)
{
    if (journal->out >= 0) {
        close(journal->out);
    }
    free(journal->text);
}
