#include "record.h"

#include <inttypes.h>
#include <stdlib.h>
#include <string.h>

static const char *const events[] = {
    [RB_START] = "start", [RB_PASS] = "pass", [RB_FAIL] = "fail", [RB_CRASH] = "crash", [RB_END] = "end",
};

#define EVENTS (sizeof events / sizeof events[0])

size_t record_place(const struct record *record, uint32_t id)
{
    size_t low = 0, high = record->count;

    while (low < high) {
        size_t middle = low + (high - low) / 2;

        if (record->cases[middle].id < id) {
            low = middle + 1;
        } else {
            high = middle;
        }
    }
    return low < record->count && record->cases[low].id == id ? low : record->count;
}

const rb_case *record_running(const struct record *record)
{
    for (size_t i = 0; i < record->count; i++) {
        if (record->cases[i].state == RB_RUNNING) {
            return &record->cases[i];
        }
    }
    return NULL;
}

/* The first line: the hashes, and how many cases are listed after it. */
static bool take_open(struct record *record, struct text rest)
{
    uint64_t count;

    record->submission = text_word(&rest, "");
    record->archive = text_word(&rest, "");
    if (record->cases != NULL || !text_number(text_word(&rest, ""), RB_CASES_MAX, &count)) {
        return false;
    }
    record->cases = calloc(count + 1, sizeof *record->cases);
    record->history = calloc(count + 1, sizeof *record->history);
    record->count = (size_t)count;
    return record->cases != NULL && record->history != NULL;
}

static bool take_event(struct record *record, uint32_t event, const struct entry *entry)
{
    size_t place = record_place(record, entry->id);

    if (rb_tally_event(record->cases, record->count, &record->ended, event, entry->id).number != RB_ANSWERED) {
        return false;
    }
    if (place < record->count && event == RB_START) {
        record->history[place].began = entry->time;
    } else if (place < record->count && event != RB_END) {
        record->history[place].evidence = entry->rest;
        record->history[place].ended = entry->time;
    }
    return true;
}

/* Datagrams that were dropped since the line of this kind before: late, strange, foreign, unreadable. */
static bool take_dropped(struct record *record, struct text rest)
{
    size_t *const counts[] = {&record->late, &record->strange, &record->foreign, &record->unreadable};

    for (size_t i = 0; i < sizeof counts / sizeof counts[0]; i++) {
        uint64_t more;

        if (!text_number(text_word(&rest, ""), UINT32_MAX, &more)) {
            return false;
        }
        *counts[i] += (size_t)more;
    }
    return true;
}

static bool take_entry(struct record *record, const struct entry *entry, size_t *listed)
{
    if (text_is(entry->event, "open")) {
        return take_open(record, entry->rest);
    }
    if (text_is(entry->event, "listed")) {
        if (*listed == record->count) {
            return false;
        }
        record->cases[*listed].id = entry->id;
        record->history[*listed].title = entry->rest;
        (*listed)++;
        return true;
    }
    if (*listed != record->count || record->cases == NULL) {
        return false;
    }
    for (uint32_t event = RB_START; event < EVENTS; event++) {
        if (text_is(entry->event, events[event])) {
            return take_event(record, event, entry);
        }
    }
    if (text_is(entry->event, "run")) {
        record->runs++;
        record->reason = (struct text){NULL, NULL};
        return true;
    }
    if (text_is(entry->event, "stop")) {
        record->reason = entry->rest;
        return true;
    }
    return text_is(entry->event, "dropped") && take_dropped(record, entry->rest);
}

bool record_read(struct record *record, const char *file, struct complaint *why)
{
    struct entry entry;
    size_t at = 0, listed = 0;

    memset(record, 0, sizeof *record);
    if (!journal_read(&record->journal, file, why)) {
        return false;
    }
    while (journal_entry(&record->journal, &at, &entry)) {
        if (!take_entry(record, &entry, &listed)) {
            return complain(why, "%s: line %" PRIu64 " does not follow from the lines before it", file, entry.sequence);
        }
        record->first = entry.sequence == 1 ? entry.time : record->first;
        record->last = entry.time;
    }
    if (record->cases == NULL || listed != record->count) {
        return complain(why, "%s lists no cases", file);
    }
    return true;
}

bool record_event(struct record *record, uint32_t event, uint32_t id, const char *evidence, struct complaint *why)
{
    rb_result result;

    if (!journal_append(&record->journal, events[event], id, evidence, why) || !journal_sync(&record->journal, why)) {
        return false;
    }
    result = rb_tally_event(record->cases, record->count, &record->ended, event, id);
    return result.number == RB_ANSWERED || complain(why, "the tally refuses an event with %" PRIu32, result.number);
}

rb_report record_report(const struct record *record)
{
    return rb_tally_report(record->cases, record->count, record->ended);
}

void record_free(struct record *record)
{
    journal_close(&record->journal);
    free(record->cases);
    free(record->history);
}
