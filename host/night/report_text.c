#define _POSIX_C_SOURCE 200809L
#include <inttypes.h>
#include <stdlib.h>

#include "report.h"

/* The four numbers and their sum. */
static void print_numbers(FILE *out, const rb_report *report)
{
    fprintf(out,
            "%" PRIu32 " passed, %" PRIu32 " failed, %" PRIu32 " broken, %" PRIu32 " not run: %" PRIu32 " cases%s\n",
            report->passed, report->failed, report->broken, report->not_run,
            report->passed + report->failed + report->broken + report->not_run,
            report_is_complete(report) ? "" : ", NOT COMPLETE");
}

static void print_message(FILE *out, struct text evidence, const char *word)
{
    char *said = report_message(evidence, word);

    if (said != NULL) {
        fprintf(out, "    %s: ", word);
        for (const char *c = said; *c != '\0'; c++) {
            if (*c == '\n') {
                fputs("\n        ", out);
            } else {
                putc(*c, out);
            }
        }
        putc('\n', out);
    }
    free(said);
}

static void print_case(FILE *out, const struct record *record, size_t place)
{
    const struct history *history = &record->history[place];
    char *reason = report_reason(record, place);

    fprintf(out, "%s: case %" PRIu32 " %.*s\n    %s\n", report_class(record, place), record->cases[place].id,
            (int)(history->title.end - history->title.at), history->title.at, reason == NULL ? "" : reason);
    free(reason);
    if (record->cases[place].state == RB_FAILED) {
        print_message(out, history->evidence, "reference");
        print_message(out, history->evidence, "switch");
        print_message(out, history->evidence, "datagram");
    }
}

void report_text(FILE *out, const struct record *record)
{
    rb_report report = record_report(record);

    print_numbers(out, &report);
    fprintf(out, "submission %.*s\narchive    %.*s\n", (int)(record->submission.end - record->submission.at),
            record->submission.at, (int)(record->archive.end - record->archive.at), record->archive.at);
    fprintf(out, "dropped datagrams: %zu late, %zu from elsewhere, %zu of another community, %zu unreadable\n",
            record->late, record->strange, record->foreign, record->unreadable);
    for (size_t i = 0; i < record->count; i++) {
        if (record->cases[i].state != RB_PASSED && record->cases[i].state != RB_NOT_RUN) {
            print_case(out, record, i);
        }
    }
    if (report.not_run > 0) {
        struct text reason = report_not_run(record);

        fprintf(out, "not run, because: %.*s\n", (int)(reason.end - reason.at), reason.at);
    }
}
