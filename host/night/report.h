/* Reports of a night, from its journal alone. */
#ifndef NIGHT_REPORT_H
#define NIGHT_REPORT_H

#include <stdio.h>

#include "record.h"

void report_text(FILE *out, const struct record *record);
void report_junit(FILE *out, const struct record *record);
void report_tap(FILE *out, const struct record *record);
void report_html(FILE *out, const struct record *record);

/* What all of them say of a case. */

/* "passed", "failed", "broken" or "not run". */
const char *report_class(const struct record *record, size_t place);

/* Why cases did not run. */
struct text report_not_run(const struct record *record);

/* Why a case failed, broke or did not run, in one line; the words are the caller's to free. */
char *report_reason(const struct record *record, size_t place);

/* A message that the evidence holds under this word, as a case file would say it, in lines; NULL where it holds none.
 * The words are the caller's to free. */
char *report_message(struct text evidence, const char *word);

/* Prints a text so that markup and control characters in it are only text, and octets that are no UTF-8 show as such. */
void report_escaped(FILE *out, struct text text);
struct text report_words(const char *words);

bool report_is_complete(const rb_report *report);

#endif
