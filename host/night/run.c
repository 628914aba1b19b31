#define _POSIX_C_SOURCE 200809L
#include "run.h"

#include <inttypes.h>
#include <signal.h>
#include <stdio.h>
#include <stdlib.h>
#include <string.h>
#include <sys/prctl.h>
#include <sys/wait.h>
#include <time.h>
#include <unistd.h>

#include "message.h"
#include "player.h"

#define EVIDENCE_MAX 12000
#define IDS_OF_A_RUN (1u << 20) /* request ids that one line of the journal sets apart */
#define IDS_SPARE (1u << 18)    /* under this many, the next are set apart before a case starts */
#define RUNS_MAX 2047u          /* ids stay below 2^31 */
#define BETWEEN 0.25            /* seconds from one update of the terminal to the next */

enum { MINUTES_OF_A_DAY = 1440, MINUTES_LATE = 360 };

struct night {
    struct player player; /* first, so that the witness finds the night */
    struct record *record;
    struct link *link;
    const struct options *options;
    const struct planned *planned;
    bool silent;  /* the switch gave no answer */
    bool refused; /* the library refused a request */
    bool differs; /* the switch answered something else */
    char evidence[EVIDENCE_MAX];
    double began, shown;
    size_t done;
};

static volatile sig_atomic_t interrupted;

static void interrupt(int number)
{
    (void)number;
    interrupted = 1;
}

static double now(void)
{
    struct timespec time;

    clock_gettime(CLOCK_MONOTONIC, &time);
    return (double)time.tv_sec + (double)time.tv_nsec / 1e9;
}

static void print_hex(FILE *out, const char *word, const uint8_t *octets, size_t count)
{
    fprintf(out, "%s ", word);
    for (size_t i = 0; i < count; i++) {
        fprintf(out, "%02X", octets[i]);
    }
    putc(' ', out);
}

static void print_place(FILE *out, const struct night *night)
{
    const struct line *line = &night->player.line;

    fprintf(out, "at %s:%zu: %.*s", night->planned->script->file, line->number, (int)(line->text.end - line->text.at),
            line->text.at);
}

/* Evidence is written once for a case: of the first thing that decides. */
static FILE *start_evidence(struct night *night)
{
    memset(night->evidence, 0, sizeof night->evidence);
    return fmemopen(night->evidence, sizeof night->evidence - 1, "w");
}

static void note_words(struct night *night, const char *words, const struct octets *request)
{
    FILE *out = start_evidence(night);

    if (request != NULL) {
        print_hex(out, "request", request->at, request->count);
    }
    fputs(words, out);
    putc(' ', out);
    print_place(out, night);
    fclose(out);
}

/* What the switch answered is a message, or a datagram that the library has no message for. */
static void note_difference(struct night *night, const struct octets *request, const struct reply *reply,
                            enum link_outcome outcome, const uint8_t *answer, size_t count)
{
    FILE *out = start_evidence(night);

    print_hex(out, "request", request->at, request->count);
    print_hex(out, "reference", night->player.bridge.room, reply->count);
    print_hex(out, outcome == LINK_UNLIKE ? "datagram" : "switch", answer, count);
    if (outcome == LINK_UNLIKE) {
        fprintf(out, "(the library refuses its datagram with %" PRIu32 ") ", night->link->refusal);
    }
    print_place(out, night);
    fclose(out);
}

/* Asks the switch what the library was asked, and compares the two answers octet for octet, in our form. */
static void ask_switch(struct player *player, const struct octets *request, const struct reply *reply)
{
    static uint8_t answer[RB_MESSAGE_MAX];
    struct night *night = (struct night *)player;
    enum link_outcome outcome;
    size_t count;

    if (reply->number != RB_ANSWERED) {
        char words[60];

        snprintf(words, sizeof words, "the library refuses the request with %" PRIu32, reply->number);
        note_words(night, words, request);
        night->refused = true;
        player->stopped = true;
        return;
    }
    outcome = link_ask(night->link, request, answer, &count);
    if (outcome == LINK_SILENT) {
        note_words(night, "the switch gives no answer", request);
        night->silent = true;
        player->stopped = true;
    } else if (!night->differs && (outcome == LINK_UNLIKE || count != reply->count ||
                                   memcmp(answer, player->bridge.room, count) != 0)) {
        note_difference(night, request, reply, outcome, answer, count);
        night->differs = true;
    }
}

/* The event that the played case comes to. What is not the switch's doing is never a fail. */
static uint32_t verdict(struct night *night)
{
    if (night->silent || night->refused) {
        return RB_CRASH;
    }
    if (night->player.differences > 0) {
        FILE *out = start_evidence(night);

        fprintf(out, "the reference differs from what the file expects at %s:%zu", night->planned->script->file,
                night->player.differed_at);
        fclose(out);
        return RB_CRASH;
    }
    return night->differs ? RB_FAIL : RB_PASS;
}

/* Sets apart request ids that no run before had: a block of them for each line `run`. */
static bool take_ids(struct night *night, struct complaint *why)
{
    struct record *record = night->record;

    if (night->link->ids_left >= IDS_SPARE) {
        return true;
    }
    if (record->runs == RUNS_MAX) {
        return complain(why, "the journal has no request ids left");
    }
    record->runs++;
    night->link->id = record->runs * IDS_OF_A_RUN;
    night->link->ids_left = IDS_OF_A_RUN - 1;
    return journal_append(&record->journal, "run", record->runs, "request ids from here on", why) &&
           journal_sync(&record->journal, why);
}

static bool play_case(struct night *night, uint32_t *event, struct complaint *why)
{
    const struct planned *planned = night->planned;

    night->silent = night->refused = night->differs = false;
    night->evidence[0] = '\0';
    night->player.differences = 0;
    night->player.differed_at = 0;
    night->player.stopped = false;
    if (!record_event(night->record, RB_START, planned->id, "", why)) {
        return false;
    }
    player_play_case(&night->player, planned->script, planned->place);
    *event = verdict(night);
    return record_event(night->record, *event, planned->id, night->evidence, why);
}

/* Asks for the number of ports until the switch answers, or the time is over. */
static bool probe(struct night *night)
{
    static uint8_t answer[RB_MESSAGE_MAX];
    static const struct name ports = {.count = 10, .sub = {1, 3, 6, 1, 2, 1, 17, 1, 2, 0}};
    double end = now() + night->options->wait;
    struct octets request;
    size_t count;

    request_start(&request, RB_GET, 0);
    request_add(&request, &ports, NULL);
    do {
        if (link_ask(night->link, &request, answer, &count) != LINK_SILENT) {
            return true;
        }
    } while (now() < end && !interrupted);
    return false;
}

/* Runs a command of the shell, which ends with the night: left alone it would make a switch fresh in a later run. */
static bool run_command(const char *command)
{
    int status = 0;
    pid_t child = fork();

    if (child == 0) {
        prctl(PR_SET_PDEATHSIG, SIGKILL);
        execl("/bin/sh", "sh", "-c", command, (char *)NULL);
        _exit(127);
    }
    while (child > 0 && waitpid(child, &status, 0) < 0 && !interrupted) {
    }
    return child > 0 && WIFEXITED(status) && WEXITSTATUS(status) == 0;
}

/* Makes the switch fresh before a case that starts with a bridge. */
static bool make_fresh(const struct night *night)
{
    char line[300];
    const struct planned *planned = night->planned;

    if (night->options->fresh == NULL) {
        return true;
    }
    snprintf(line, sizeof line, "%.*s", (int)(planned->bridge.end - planned->bridge.at), planned->bridge.at);
    setenv("BRIDGE", line, 1);
    return run_command(night->options->fresh);
}

/* True once the clock shows HH:MM, in the six hours after it: a night may have 18 hours, and one that is resumed too late starts nothing. */
static bool is_late(const char *until)
{
    time_t seconds = time(NULL);
    struct tm clock;
    int hour = atoi(until), minute = atoi(until + 3);

    localtime_r(&seconds, &clock);
    return ((clock.tm_hour - hour) * 60 + clock.tm_min - minute + MINUTES_OF_A_DAY) % MINUTES_OF_A_DAY < MINUTES_LATE;
}

/* The clock time in so many seconds. */
static void print_clock(char clock[16], double seconds)
{
    time_t at = time(NULL) + (time_t)seconds;
    struct tm parts;

    localtime_r(&at, &parts);
    strftime(clock, 16, "%H:%M", &parts);
}

static void show(struct night *night)
{
    double time = now(), rate;
    rb_report report;
    char clock[16];

    if (!isatty(STDERR_FILENO) || time - night->shown < BETWEEN) {
        return;
    }
    night->shown = time;
    report = record_report(night->record);
    rate = (double)night->done / (time - night->began + 0.001);
    print_clock(clock, (double)report.not_run / (rate + 0.001));
    fprintf(stderr, "\r%zu of %zu, %" PRIu32 " passed, %" PRIu32 " failed, %" PRIu32 " broken, %.0f/s, ends %s \033[K",
            night->record->count - report.not_run, night->record->count, report.passed, report.failed, report.broken,
            rate, clock);
}

/* Why the next case cannot start, or NULL. */
static const char *obstacle(struct night *night)
{
    if (interrupted) {
        return "stopped from the keyboard or by a request";
    }
    if (night->options->until != NULL && is_late(night->options->until)) {
        return "the time is over";
    }
    if (night->planned->bridge.at != NULL && !make_fresh(night)) {
        return "the command that makes the switch fresh failed";
    }
    return NULL;
}

/* Runs what has not run. A case that needs what a case before it left is passed over where that one broke, or ran in an
 * earlier run: it stays not run. `stop` is why no more is started, or NULL. */
static bool run_all(struct night *night, const struct plan *plan, const char **stop, struct complaint *why)
{
    bool needs_bridge = true;
    uint32_t event;

    for (size_t i = 0; i < plan->count; i++) {
        night->planned = &plan->cases[i];
        if (night->record->cases[i].state != RB_NOT_RUN) {
            needs_bridge = true;
            continue;
        }
        if (needs_bridge && night->planned->bridge.at == NULL) {
            continue;
        }
        if ((*stop = obstacle(night)) != NULL) {
            return true;
        }
        if (!take_ids(night, why) || !play_case(night, &event, why)) {
            return false;
        }
        needs_bridge = event == RB_CRASH;
        night->done++;
        show(night);
        if (night->silent && !probe(night)) {
            *stop = "the switch is silent";
            return true;
        }
    }
    return true;
}

static bool note_dropped(struct night *night, struct complaint *why)
{
    struct link *link = night->link;
    char counts[100];

    if (link->late + link->strange + link->foreign + link->unreadable == 0) {
        return true;
    }
    snprintf(counts, sizeof counts, "%zu %zu %zu %zu", link->late, link->strange, link->foreign, link->unreadable);
    return journal_append(&night->record->journal, "dropped", 0, counts, why);
}

static bool finish(struct night *night, const char *stop, struct complaint *why)
{
    struct journal *journal = &night->record->journal;

    if (isatty(STDERR_FILENO)) {
        fputs("\r\033[K", stderr);
    }
    if (!note_dropped(night, why)) {
        return false;
    }
    if (stop == NULL) {
        return record_event(night->record, RB_END, 0, "", why);
    }
    fprintf(stderr, "night: stopped: %s\n", stop);
    return journal_append(journal, "stop", 0, stop, why) && journal_sync(journal, why);
}

bool run_cases(struct record *record, const struct plan *plan, struct link *link, const struct options *options,
               struct complaint *why)
{
    static struct night night;
    struct sigaction action = {.sa_handler = interrupt, .sa_flags = (int)SA_RESETHAND};
    const rb_case *running = record_running(record);
    const char *stop = NULL;

    night = (struct night){.record = record, .link = link, .options = options, .began = now()};
    night.player.mode = PLAY_SILENT;
    night.player.witness = ask_switch;
    bridge_clear(&night.player.bridge);
    sigaction(SIGINT, &action, NULL);
    sigaction(SIGTERM, &action, NULL);
    if (running != NULL && !record_event(record, RB_CRASH, running->id, "the run was interrupted in this case", why)) {
        return false;
    }
    return run_all(&night, plan, &stop, why) && finish(&night, stop, why);
}
