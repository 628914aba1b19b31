/* Plays case files on the reference bridge and compares the answers with those that the files expect.
 *
 *   play [--quiet | --check | --fill | --manifest] FILE...       a FILE may be - for standard input
 *   play --objects | --version | --help
 *
 * Every line of every file is read before the first command is played. cases/FORMAT.md tells how a file is written. */
#include <errno.h>
#include <stdio.h>
#include <stdlib.h>
#include <string.h>

#include "catalogue.h"
#include "identity.h"
#include "plan.h"
#include "player.h"
#include "signals.h"
#include "submission.h"

enum {
    STATUS_SAME = 0,       /* something was compared, and nothing differed */
    STATUS_DIFFERED = 1,   /* something differed, or a call had a flaw */
    STATUS_UNREADABLE = 2, /* a file, a line or an option cannot be read, and nothing was played */
    STATUS_NOTHING = 3,    /* nothing differed, because nothing was compared */
    STATUS_STOPPED = 4     /* stopped before the end, or output was lost */
};

static const char usage[] =
    "usage: play [OPTION] FILE...    (FILE - is standard input; a manifest stands for its files)\n"
    "  --quiet     print only the differences and the last line\n"
    "  --check     read every file and tell every error; play nothing\n"
    "  --fill      print the one FILE with the answers that it does not expect yet\n"
    "  --manifest  print the manifest of a submission of these files\n"
    "  --objects   print the objects: name, object identifier, devices that have it, type, access, range, index\n"
    "  --version   print the archive's SHA-256, the kit that proved it, and the requests built in\n"
    "status: 0 same, 1 differs, 2 unreadable (nothing played), 3 nothing compared, 4 stopped or output lost\n";

enum task { TASK_PLAY, TASK_QUIET, TASK_CHECK, TASK_FILL, TASK_MANIFEST, TASK_OBJECTS, TASK_VERSION, TASK_HELP };

static const char *const options[] = {
    [TASK_QUIET] = "--quiet",     [TASK_CHECK] = "--check",     [TASK_FILL] = "--fill", [TASK_MANIFEST] = "--manifest",
    [TASK_OBJECTS] = "--objects", [TASK_VERSION] = "--version", [TASK_HELP] = "--help",
};

#define TASKS (sizeof options / sizeof options[0])

struct request {
    enum task task;
    char **files; /* the arguments that are no options */
    size_t count;
};

static int lost_output(void)
{
    fprintf(stderr, "play: the output cannot be written: %s\n", strerror(errno));
    return STATUS_STOPPED;
}

static int finish(int status)
{
    return fflush(stdout) != 0 || ferror(stdout) ? lost_output() : status;
}

static int verdict(const struct player *player)
{
    if (player->differences > 0) {
        return STATUS_DIFFERED;
    }
    if (player->compared == 0) {
        fputs("play: nothing was compared: no command has an expected answer\n", stderr);
        return STATUS_NOTHING;
    }
    return STATUS_SAME;
}

/* The last line of a run, or of a check. */
static void print_counts(const struct submission *submission, const char *after)
{
    if (submission->cases > 0) {
        printf("%zu cases, ", submission->cases);
    }
    printf("%zu commands, %s\n", submission->commands, after);
}

static int play_all(const struct submission *submission, enum play_mode mode)
{
    static struct player player;
    char after[100];

    player.mode = mode;
    progress_start(&player.progress, submission->commands, mode != PLAY_ALL);
    stopping_start("play", STATUS_STOPPED);
    for (size_t i = 0; i < submission->count; i++) {
        if (!player_play(&player, &submission->scripts[i])) {
            return lost_output();
        }
    }
    progress_clear(&player.progress);
    if (mode == PLAY_FILL) {
        return finish(player.differences > 0 ? STATUS_DIFFERED : STATUS_SAME);
    }
    snprintf(after, sizeof after, "%zu answers compared, %zu differences", player.compared, player.differences);
    print_counts(submission, after);
    return finish(verdict(&player));
}

static int check_only(const struct submission *submission)
{
    char after[60];

    snprintf(after, sizeof after, "%zu expected answers: readable", submission->expected);
    print_counts(submission, after);
    return finish(STATUS_SAME);
}

static int on_files(const struct submission *submission, enum task task)
{
    switch (task) {
    case TASK_CHECK:
        return check_only(submission);
    case TASK_MANIFEST:
        submission_print(submission);
        return finish(STATUS_SAME);
    case TASK_FILL:
        return play_all(submission, PLAY_FILL);
    default:
        return play_all(submission, task == TASK_QUIET ? PLAY_QUIET : PLAY_ALL);
    }
}

/* A submission is for a switch: whatever a switch cannot be asked makes it unreadable. Returns how many errors were told. */
static size_t check_playable(const struct submission *submission)
{
    struct plan plan;
    size_t errors;

    if (submission->manifest.text == NULL) {
        return 0;
    }
    errors = plan_make(&plan, submission, "public");
    plan_free(&plan);
    return errors;
}

static int with_files(const struct request *request)
{
    struct submission submission;
    size_t errors = submission_read(&submission, request->files, request->count);
    int status = STATUS_UNREADABLE;

    errors = errors > 0 ? errors : check_playable(&submission);

    if (errors > 0) {
        fprintf(stderr, "play: %zu errors, so nothing was played\n", errors);
    } else if ((request->task == TASK_FILL || request->task == TASK_MANIFEST) && submission.manifest.text != NULL) {
        fprintf(stderr, "play: %s takes case files, no manifest\n", options[request->task]);
    } else {
        status = on_files(&submission, request->task);
    }
    submission_free(&submission);
    return status;
}

static void print_version(void)
{
    printf("archive  %s\nkit      %s\nrequests %s\n", archive_sha256, kit_identity, requests_built_in);
}

static int without_files(enum task task)
{
    if (task == TASK_OBJECTS) {
        catalogue_print();
    } else if (task == TASK_VERSION) {
        print_version();
    } else {
        fputs(usage, stdout);
    }
    return finish(STATUS_SAME);
}

/* Takes one option; false where it is none, or the second one. */
static bool take_option(struct request *request, const char *word)
{
    for (size_t i = 0; i < TASKS; i++) {
        if (options[i] != NULL && strcmp(word, options[i]) == 0 && request->task == TASK_PLAY) {
            request->task = (enum task)i;
            return true;
        }
    }
    fprintf(stderr, "play: no such option, or one too many: %s\n", word);
    return false;
}

/* Options may stand before, between and after the files; after -- there are only files. */
static bool read_arguments(struct request *request, int argc, char **argv)
{
    bool only_files = false;

    request->files = argv + 1;
    for (int i = 1; i < argc; i++) {
        if (!only_files && strcmp(argv[i], "--") == 0) {
            only_files = true;
        } else if (only_files || argv[i][0] != '-' || argv[i][1] == '\0') {
            request->files[request->count++] = argv[i];
        } else if (!take_option(request, argv[i])) {
            return false;
        }
    }
    return true;
}

int main(int argc, char **argv)
{
    struct request request = {.task = TASK_PLAY};
    bool readable = read_arguments(&request, argc, argv);
    bool takes_files = request.task < TASK_OBJECTS;

    setvbuf(stdout, NULL, _IOLBF, BUFSIZ); /* what was printed is kept, whatever ends the run */
    if (!readable || takes_files == (request.count == 0) || (request.task == TASK_FILL && request.count != 1)) {
        fputs(usage, stderr);
        return STATUS_UNREADABLE;
    }
    return takes_files ? with_files(&request) : without_files(request.task);
}
