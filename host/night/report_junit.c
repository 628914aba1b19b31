#define _POSIX_C_SOURCE 200809L
#include <inttypes.h>
#include <stdlib.h>

#include "report.h"

static void print_problem(FILE *out, const struct record *record, size_t place)
{
    bool failed = record->cases[place].state == RB_FAILED;
    const char *element = failed ? "failure" : "error";
    char *reason = report_reason(record, place);
    char *reference = report_message(record->history[place].evidence, "reference");
    char *other = report_message(record->history[place].evidence, "switch");

    if (other == NULL) {
        other = report_message(record->history[place].evidence, "datagram");
    }
    fprintf(out, "<%s type=\"%s\" message=\"", element, report_class(record, place));
    report_escaped(out, report_words(reason == NULL ? "" : reason));
    fputs("\">", out);
    if (failed && reference != NULL && other != NULL) {
        fputs("reference: ", out);
        report_escaped(out, report_words(reference));
        fputs("\nswitch: ", out);
        report_escaped(out, report_words(other));
    }
    fprintf(out, "</%s>", element);
    free(reason);
    free(reference);
    free(other);
}

void report_junit(FILE *out, const struct record *record)
{
    rb_report report = record_report(record);

    fputs("<?xml version=\"1.0\" encoding=\"UTF-8\"?>\n", out);
    fprintf(out,
            "<!-- %" PRIu32 " passed, %" PRIu32 " failed, %" PRIu32 " broken, %" PRIu32 " not run: %zu cases -->\n",
            report.passed, report.failed, report.broken, report.not_run, record->count);
    fprintf(out, "<testsuite name=\"night\" tests=\"%zu\" failures=\"%" PRIu32 "\" errors=\"%" PRIu32 "\">\n",
            record->count, report.failed, report.broken + report.not_run);
    for (size_t i = 0; i < record->count; i++) {
        const struct history *history = &record->history[i];

        fprintf(out, "<testcase classname=\"case\" name=\"%" PRIu32 " ", record->cases[i].id);
        report_escaped(out, history->title);
        fprintf(out, "\" time=\"%lld\">", (long long)(history->ended > history->began ? history->ended - history->began : 0));
        if (record->cases[i].state != RB_PASSED) {
            print_problem(out, record, i);
        }
        fputs("</testcase>\n", out);
    }
    fputs("</testsuite>\n", out);
}
