#define _POSIX_C_SOURCE 200809L
#include <inttypes.h>
#include <stdlib.h>
#include <time.h>

#include "report.h"

static const char head[] =
    "<!DOCTYPE html>\n<html lang=\"en\"><head><meta charset=\"utf-8\"><title>A night at the bench</title>\n<style>\n"
    "body { font: 15px/1.45 sans-serif; max-width: 60em; margin: 2em auto; padding: 0 1em; color: #222 }\n"
    ".bar { display: flex; height: 1.6em; border: 1px solid #555 }\n"
    ".passed { background: #3a8f4d } .failed { background: #c0392b } .broken { background: #d98e04 } .open { "
    "background: #bbb }\n"
    ".stop { color: #fff; background: #c0392b; padding: .5em 1em; font-weight: bold }\n"
    "table { border-collapse: collapse } td, th { text-align: left; padding: .15em 1.2em .15em 0; vertical-align: top "
    "}\n"
    "pre { background: #f4f4f4; padding: .6em; white-space: pre-wrap; overflow-wrap: anywhere }\n"
    "h3 { margin-bottom: .2em } .sign { margin: 3em 0; border-top: 1px solid #222; width: 30em; padding-top: .3em }\n"
    "</style></head><body>\n<h1>A night at the bench</h1>\n";

static void print_bar(FILE *out, const rb_report *report, size_t count)
{
    const struct {
        const char *class;
        uint32_t cases;
    } parts[] = {
        {"passed", report->passed}, {"failed", report->failed}, {"broken", report->broken}, {"open", report->not_run}};

    fputs("<div class=\"bar\">", out);
    for (size_t i = 0; i < sizeof parts / sizeof parts[0]; i++) {
        if (parts[i].cases > 0) {
            fprintf(out, "<div class=\"%s\" style=\"width:%.4f%%\" title=\"%" PRIu32 "\"></div>", parts[i].class,
                    100.0 * parts[i].cases / (double)count, parts[i].cases);
        }
    }
    fputs("</div>\n", out);
}

static void print_row(FILE *out, const char *name, struct text value)
{
    fprintf(out, "<tr><th>%s</th><td>", name);
    report_escaped(out, value);
    fputs("</td></tr>\n", out);
}

static void print_time(FILE *out, const char *name, int64_t seconds)
{
    char words[40];
    time_t when = (time_t)seconds;

    strftime(words, sizeof words, "%Y-%m-%d %H:%M:%S UTC", gmtime(&when));
    print_row(out, name, report_words(words));
}

static void print_facts(FILE *out, const struct record *record)
{
    char words[160];

    fputs("<table>\n", out);
    print_row(out, "Submission (SHA-256)", record->submission);
    print_row(out, "Archive (SHA-256)", record->archive);
    print_time(out, "First line", record->first);
    print_time(out, "Last line", record->last);
    snprintf(words, sizeof words, "%zu late, %zu from elsewhere, %zu of another community, %zu unreadable",
             record->late, record->strange, record->foreign, record->unreadable);
    print_row(out, "Dropped datagrams", report_words(words));
    if (record->reason.at != NULL) {
        print_row(out, "Stopped, because", record->reason);
    } else if (record_report(record).not_run > 0) {
        print_row(out, "Not run, because", report_not_run(record));
    }
    fputs("</table>\n", out);
}

static void print_message(FILE *out, const char *word, struct text evidence)
{
    char *said = report_message(evidence, word);

    if (said != NULL) {
        fprintf(out, "<b>%s</b><pre>", word);
        report_escaped(out, report_words(said));
        fputs("</pre>\n", out);
    }
    free(said);
}

static void print_case(FILE *out, const struct record *record, size_t place)
{
    const struct history *history = &record->history[place];
    char *reason = report_reason(record, place);

    fprintf(out, "<h3>%s: case %" PRIu32 " ", report_class(record, place), record->cases[place].id);
    report_escaped(out, history->title);
    fputs("</h3>\n<p>", out);
    report_escaped(out, report_words(reason == NULL ? "" : reason));
    fputs("</p>\n", out);
    free(reason);
    if (record->cases[place].state == RB_FAILED) {
        print_message(out, "request", history->evidence);
        print_message(out, "reference", history->evidence);
        print_message(out, "switch", history->evidence);
        print_message(out, "datagram", history->evidence);
    }
}

void report_html(FILE *out, const struct record *record)
{
    rb_report report = record_report(record);

    fputs(head, out);
    if (!report_is_complete(&report)) {
        fputs("<p class=\"stop\">NOT COMPLETE</p>\n", out);
    }
    fprintf(out,
            "<p><b>%" PRIu32 " passed, %" PRIu32 " failed, %" PRIu32 " broken, %" PRIu32
            " not run: %zu cases</b></p>\n",
            report.passed, report.failed, report.broken, report.not_run, record->count);
    print_bar(out, &report, record->count);
    print_facts(out, record);
    for (size_t i = 0; i < record->count; i++) {
        if (record->cases[i].state != RB_PASSED && record->cases[i].state != RB_NOT_RUN) {
            print_case(out, record, i);
        }
    }
    fputs("<p class=\"sign\">Name, date, signature</p>\n</body></html>\n", out);
}
