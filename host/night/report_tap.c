#define _POSIX_C_SOURCE 200809L
#include <inttypes.h>
#include <stdlib.h>

#include "report.h"

/* A '#' would start a directive, and a backslash escapes it. */
static void print_title(FILE *out, struct text title)
{
    for (const char *c = title.at; c < title.end; c++) {
        if (*c == '#' || *c == '\\') {
            putc('\\', out);
        }
        putc(*c, out);
    }
}

void report_tap(FILE *out, const struct record *record)
{
    rb_report report = record_report(record);

    fprintf(out, "TAP version 13\n1..%zu\n", record->count);
    fprintf(out, "# %" PRIu32 " passed, %" PRIu32 " failed, %" PRIu32 " broken, %" PRIu32 " not run: %zu cases\n",
            report.passed, report.failed, report.broken, report.not_run, record->count);
    for (size_t i = 0; i < record->count; i++) {
        bool passed = record->cases[i].state == RB_PASSED;

        fprintf(out, "%s %zu - case %" PRIu32 " ", passed ? "ok" : "not ok", i + 1, record->cases[i].id);
        print_title(out, record->history[i].title);
        putc('\n', out);
        if (!passed) {
            char *reason = report_reason(record, i);

            fprintf(out, "# %s: %s\n", report_class(record, i), reason == NULL ? "" : reason);
            free(reason);
        }
    }
}
