/* A night at the bench: each case of a submission on the reference and on the switch, and the report of it.
 *
 *   night run SUBMISSION --switch HOST:PORT --journal FILE [--community C] [--timeout MS] [--retries N] [--until HH:MM]
 *             [--fresh COMMAND] [--wait S]
 *   night report --journal FILE --text|--junit|--tap|--html
 *
 * docs/NIGHT.md is for the person on night shift. */
#define _POSIX_C_SOURCE 200809L
#include <signal.h>
#include <stdio.h>
#include <stdlib.h>
#include <string.h>
#include <unistd.h>

#include "identity.h"
#include "report.h"
#include "run.h"
#include "sha256.h"

enum {
    STATUS_PASSED = 0,     /* all cases */
    STATUS_FAILED = 1,     /* some cases; the others passed */
    STATUS_UNREADABLE = 2, /* submission, journal or arguments: nothing was run */
    STATUS_INCOMPLETE = 3, /* some cases are broken or not run */
    STATUS_UNWRITABLE = 4  /* the journal or the report */
};

static const char usage[] =
    "usage: night run SUBMISSION --switch HOST:PORT --journal FILE [--community C] [--timeout MS] [--retries N]\n"
    "                 [--until HH:MM] [--fresh COMMAND] [--wait S]\n"
    "       night report --journal FILE --text|--junit|--tap|--html\n"
    "status of run: 0 all passed, 1 some failed, 3 some broken or not run, 2 unreadable, 4 journal not written\n";

struct arguments {
    char *submission;
    const char *peer, *journal, *community, *timeout, *retries, *until, *fresh, *wait;
};

static int unusable(const char *words)
{
    fprintf(stderr, "night: %s\n", words);
    return STATUS_UNREADABLE;
}

static int status_of(const rb_report *report)
{
    if (report->broken + report->not_run > 0) {
        return STATUS_INCOMPLETE;
    }
    return report->failed > 0 ? STATUS_FAILED : STATUS_PASSED;
}

/* A new journal: what it is of, and every case of it. */
static bool create(const char *file, const struct plan *plan, const char *submission, struct complaint *why)
{
    struct journal journal;
    char words[400];
    bool good;

    snprintf(words, sizeof words, "%s %s %zu", submission, archive_sha256, plan->count);
    good = journal_create(&journal, file, why) && journal_append(&journal, "open", 0, words, why);
    for (size_t i = 0; good && i < plan->count; i++) {
        const struct text *title = &plan->cases[i].title;

        snprintf(words, sizeof words, "%.*s", (int)(title->end - title->at), title->at);
        good = journal_append(&journal, "listed", plan->cases[i].id, words, why);
    }
    good = good && journal_publish(&journal, why);
    journal_close(&journal);
    return good;
}

/* The journal must be of this submission and of this archive. */
static bool fits(const struct record *record, const struct plan *plan, const char *submission, struct complaint *why)
{
    if (!text_is(record->submission, submission) || record->count != plan->count) {
        return complain(why, "the journal is of another submission");
    }
    return text_is(record->archive, archive_sha256) ||
           complain(why, "the journal is of another archive of the library");
}

static int play(struct record *record, const struct plan *plan, struct link *link, const struct options *options)
{
    struct complaint why;
    rb_report report;

    if (record->ended == 0 && !run_cases(record, plan, link, options, &why)) {
        fprintf(stderr, "night: %s\n", why.words);
        return STATUS_UNWRITABLE;
    }
    report = record_report(record);
    printf("%u passed, %u failed, %u broken, %u not run: %zu cases\n", (unsigned)report.passed, (unsigned)report.failed,
           (unsigned)report.broken, (unsigned)report.not_run, record->count);
    return fflush(stdout) == 0 ? status_of(&report) : STATUS_UNWRITABLE;
}

/* Opens the journal, making it where there is none, and runs what it leaves to run. */
static int with_journal(const struct plan *plan, const char *submission, struct link *link, const struct options *options)
{
    struct record record;
    struct complaint why;
    int status;

    if (access(options->journal, F_OK) != 0 && !create(options->journal, plan, submission, &why)) {
        fprintf(stderr, "night: %s\n", why.words);
        return STATUS_UNWRITABLE;
    }
    if (!record_read(&record, options->journal, &why) || !fits(&record, plan, submission, &why)) {
        status = unusable(why.words);
    } else if (!journal_continue(&record.journal, &why)) {
        fprintf(stderr, "night: %s\n", why.words);
        status = STATUS_UNWRITABLE;
    } else {
        status = play(&record, plan, link, options);
    }
    record_free(&record);
    return status;
}

static int with_submission(const struct submission *submission, struct link *link, const struct options *options)
{
    struct plan plan;
    char hash[SHA256_DIGITS + 1];
    int status = STATUS_UNREADABLE;

    if (submission->manifest.text == NULL) {
        return unusable("a submission is given by its manifest");
    }
    if (plan_make(&plan, submission, link->community) > 0) {
        fputs("night: the submission cannot be played on a switch, so nothing was played\n", stderr);
    } else if (plan.bridges > 1 && options->fresh == NULL) {
        fputs("night: more than one case starts with a bridge, so --fresh must make the switch fresh\n", stderr);
    } else {
        sha256_hex(submission->manifest.text, submission->manifest.size, hash);
        status = with_journal(&plan, hash, link, options);
    }
    plan_free(&plan);
    return status;
}

static bool read_number(const char *words, const char *what, uint64_t least, uint64_t most, uint64_t *number)
{
    if (text_number(report_words(words), most, number) && *number >= least) {
        return true;
    }
    fprintf(stderr, "night: %s is no number from %llu to %llu: %s\n", what, (unsigned long long)least,
            (unsigned long long)most, words);
    return false;
}

/* True for HH:MM, from 00:00 to 23:59. */
static bool is_clock(const char *words)
{
    uint64_t hour, minute;

    return words == NULL || (strlen(words) == 5 && words[2] == ':' && text_number((struct text){words, words + 2}, 23, &hour) &&
                             text_number((struct text){words + 3, words + 5}, 59, &minute));
}

/* Says which argument is missing or no clock time. */
static bool is_complete(const struct arguments *arguments)
{
    const char *missing = arguments->submission == NULL ? "a submission"
                          : arguments->peer == NULL     ? "--switch"
                          : arguments->journal == NULL  ? "--journal"
                                                        : NULL;

    if (missing != NULL) {
        fprintf(stderr, "night: %s is missing\n", missing);
    } else if (!is_clock(arguments->until)) {
        fprintf(stderr, "night: --until is no time from 00:00 to 23:59: %s\n", arguments->until);
        return false;
    }
    return missing == NULL;
}

static int run_night(struct arguments *arguments)
{
    struct link link = {.community = arguments->community};
    struct options options = {.journal = arguments->journal, .until = arguments->until, .fresh = arguments->fresh};
    struct submission submission;
    struct complaint why;
    uint64_t timeout, retries, wait;
    int status = STATUS_UNREADABLE;

    if (!is_complete(arguments) || !read_number(arguments->timeout, "--timeout", 1, 3600000, &timeout) ||
        !read_number(arguments->retries, "--retries", 0, 100, &retries) ||
        !read_number(arguments->wait, "--wait", 0, 86400, &wait)) {
        fputs(usage, stderr);
        return STATUS_UNREADABLE;
    }
    link.timeout = (int)timeout;
    link.retries = (unsigned)retries;
    options.wait = (int)wait;
    if (!link_open(&link, arguments->peer, &why)) {
        return unusable(why.words);
    }
    if (submission_read(&submission, &arguments->submission, 1) == 0) {
        status = with_submission(&submission, &link, &options);
    }
    submission_free(&submission);
    link_close(&link);
    return status;
}

static int report_night(const char *journal, void (*print)(FILE *out, const struct record *record))
{
    struct record record;
    struct complaint why;
    int status = STATUS_PASSED;

    if (journal == NULL || print == NULL) {
        fprintf(stderr, "night: %s is missing\n%s", journal == NULL ? "--journal" : "the form of the report", usage);
        return STATUS_UNREADABLE;
    }
    if (!record_read(&record, journal, &why)) {
        status = unusable(why.words);
    } else {
        print(stdout, &record);
        status = fflush(stdout) == 0 && !ferror(stdout) ? STATUS_PASSED : STATUS_UNWRITABLE;
    }
    record_free(&record);
    return status;
}

static const char **argument(struct arguments *arguments, const char *option)
{
    const struct {
        const char *option;
        const char **place;
    } all[] = {
        {"--switch", &arguments->peer},     {"--journal", &arguments->journal}, {"--community", &arguments->community},
        {"--timeout", &arguments->timeout}, {"--retries", &arguments->retries}, {"--until", &arguments->until},
        {"--fresh", &arguments->fresh},     {"--wait", &arguments->wait},
    };

    for (size_t i = 0; i < sizeof all / sizeof all[0]; i++) {
        if (strcmp(option, all[i].option) == 0) {
            return all[i].place;
        }
    }
    return NULL;
}

static void (*form(const char *option))(FILE *out, const struct record *record)
{
    return strcmp(option, "--text") == 0    ? report_text
           : strcmp(option, "--junit") == 0 ? report_junit
           : strcmp(option, "--tap") == 0   ? report_tap
           : strcmp(option, "--html") == 0  ? report_html
                                            : NULL;
}

int main(int argc, char **argv)
{
    struct arguments arguments = {.community = "public", .timeout = "1000", .retries = "2", .wait = "60"};
    void (*print)(FILE * out, const struct record *record) = NULL;
    bool run = argc > 1 && strcmp(argv[1], "run") == 0;

    if (argc == 2 && strcmp(argv[1], "--help") == 0) {
        return fputs(usage, stdout) >= 0 && fflush(stdout) == 0 ? STATUS_PASSED : STATUS_UNWRITABLE;
    }
    signal(SIGXFSZ, SIG_IGN); /* a journal that may not grow is an error of writing */
    signal(SIGPIPE, SIG_IGN);
    for (int i = 2; i < argc; i++) {
        const char **place = argument(&arguments, argv[i]);

        if (place != NULL && i + 1 < argc) {
            *place = argv[++i];
        } else if (place == NULL && !run && form(argv[i]) != NULL && print == NULL) {
            print = form(argv[i]);
        } else if (place == NULL && run && argv[i][0] != '-' && arguments.submission == NULL) {
            arguments.submission = argv[i];
        } else {
            fprintf(stderr, "night: not understood: %s\n%s", argv[i], usage);
            return STATUS_UNREADABLE;
        }
    }
    if (run) {
        return run_night(&arguments);
    }
    if (argc > 1 && strcmp(argv[1], "report") == 0) {
        return report_night(arguments.journal, print);
    }
    fputs(usage, stderr);
    return STATUS_UNREADABLE;
}
