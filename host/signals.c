#define _POSIX_C_SOURCE 200809L
#include "signals.h"

#include <signal.h>
#include <stdio.h>
#include <string.h>
#include <unistd.h>

#define NOTE_MAX 512

static const struct {
    int number;
    const char *words;
} signals[] = {
    {SIGABRT, "an abort (SIGABRT)"},        {SIGSEGV, "a bad address (SIGSEGV)"},
    {SIGBUS, "a bad address (SIGBUS)"},     {SIGILL, "a bad instruction (SIGILL)"},
    {SIGFPE, "arithmetic (SIGFPE)"},        {SIGTRAP, "a trap (SIGTRAP)"},
    {SIGINT, "the keyboard (SIGINT)"},      {SIGTERM, "a request (SIGTERM)"},
    {SIGHUP, "a closed terminal (SIGHUP)"},
};

#define SIGNALS (sizeof signals / sizeof signals[0])

/* Two notes, so that the handler never reads one that is half written. */
static char notes[2][NOTE_MAX];
static volatile sig_atomic_t current;
static const char *program_name;
static int end_status;

static void say(const char *words)
{
    if (write(STDERR_FILENO, words, strlen(words)) < 0) {
        return; /* nobody is left to tell */
    }
}

static void stop(int number)
{
    const char *words = "a signal";

    for (size_t i = 0; i < SIGNALS; i++) {
        if (signals[i].number == number) {
            words = signals[i].words;
        }
    }
    say("\n");
    say(program_name);
    say(": stopped by ");
    say(words);
    say(notes[current][0] == '\0' ? ", before the first command" : " at ");
    say(notes[current]);
    say("\n");
    _exit(end_status);
}

void stopping_start(const char *program, int status)
{
    struct sigaction action = {.sa_handler = stop};

    program_name = program;
    end_status = status;
    sigfillset(&action.sa_mask);
    for (size_t i = 0; i < SIGNALS; i++) {
        sigaction(signals[i].number, &action, NULL);
    }
    signal(SIGPIPE, SIG_IGN);
}

void stopping_note(const char *file, size_t line, struct text command)
{
    int next = 1 - current;

    snprintf(notes[next], NOTE_MAX, "%s:%zu: %.*s", file, line, (int)(command.end - command.at), command.at);
    current = next;
}
