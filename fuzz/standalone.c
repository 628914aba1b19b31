/* A driver of the harness that needs no libFuzzer: it keeps changed inputs that reach an outcome for the first time.
 *
 *   answer_plain RUNS SEED FOLDER    plays the inputs of a folder, then RUNS changed ones
 *   answer_plain FILE                plays one input
 *   answer_plain --case FILE         prints an input as a case file, for target/host/play
 *
 * An input that fails is written to the file that FAILED_INPUT names (failed-input where it is not set). */
#define _DEFAULT_SOURCE
#include <dirent.h>
#include <fcntl.h>
#include <signal.h>
#include <stdbool.h>
#include <stdio.h>
#include <stdlib.h>
#include <string.h>
#include <unistd.h>

#include "answer.h"
#include "dice.h"
#include "input.h"
#include "refbridge.h"
#include "start.h"

enum { POOL_MAX = 4096 };

struct sample {
    size_t length;
    uint8_t *octets;
};

static struct sample pool[POOL_MAX];
static size_t pooled;
static uint8_t current[INPUT_MAX];
static size_t current_length;
static bool seen[OUTCOMES];
static struct dice dice;

static void stop(const char *why, const char *what)
{
    fprintf(stderr, "answer_plain: %s: %s\n", why, what);
    exit(2);
}

/* Keeps the input that is being played. */
static void save_input(int signal_number)
{
    static const char words[] = "answer_plain: the input that was played ended the program\n";
    const char *name = getenv("FAILED_INPUT");
    int file = open(name != NULL ? name : "failed-input", O_WRONLY | O_CREAT | O_TRUNC, 0644);
    bool kept = file >= 0 && write(file, current, current_length) == (ssize_t)current_length;

    (void)signal_number;
    _exit(kept && write(STDERR_FILENO, words, sizeof words - 1) > 0 ? 1 : 3);
}

/* A change that knows nothing of the form, as libFuzzer has it. */
size_t LLVMFuzzerMutate(uint8_t *octets, size_t length, size_t room)
{
    size_t at = length > 0 ? below(&dice, (uint32_t)length) : 0;

    if (length < room && once_in(&dice, 3)) {
        memmove(octets + at + 1, octets + at, length - at);
        octets[at] = (uint8_t)below(&dice, 256);
        return length + 1;
    }
    if (length > 1 && once_in(&dice, 3)) {
        memmove(octets + at, octets + at + 1, length - at - 1);
        return length - 1;
    }
    if (length > 0) {
        octets[at] ^= (uint8_t)(1u << below(&dice, 8));
    }
    return length;
}

static void keep_current(void)
{
    uint8_t *octets = malloc(current_length + 1);

    if (octets == NULL || pooled == POOL_MAX) {
        free(octets);
        return;
    }
    memcpy(octets, current, current_length);
    pool[pooled++] = (struct sample){current_length, octets};
}

/* Plays the current input; true where it reached an outcome that none before did. */
static bool play_current(void)
{
    bool new = false;

    memset(outcomes, 0, sizeof outcomes);
    LLVMFuzzerTestOneInput(current, current_length);
    for (size_t i = 0; i < OUTCOMES; i++) {
        if (outcomes[i] > 0 && !seen[i]) {
            seen[i] = true;
            new = true;
        }
    }
    return new;
}

static void load(const char *path)
{
    FILE *file = fopen(path, "rb");

    if (file == NULL) {
        stop("cannot be read", path);
    }
    current_length = fread(current, 1, sizeof current, file);
    fclose(file);
}

static int is_plain_name(const struct dirent *entry)
{
    return entry->d_name[0] != '.';
}

/* In the order of their names, so that a run is the same every time. */
static void play_folder(const char *folder)
{
    struct dirent **entries;
    int count = scandir(folder, &entries, is_plain_name, alphasort);

    if (count < 0) {
        stop("cannot be read", folder);
    }
    for (int i = 0; i < count; i++) {
        char path[4096];

        snprintf(path, sizeof path, "%s/%s", folder, entries[i]->d_name);
        load(path);
        play_current();
        keep_current();
        free(entries[i]);
    }
    free(entries);
}

static void change_current(void)
{
    const struct sample *one = &pool[below(&dice, (uint32_t)pooled)], *other = &pool[below(&dice, (uint32_t)pooled)];

    current_length = one->length;
    memcpy(current, one->octets, one->length);
    if (once_in(&dice, 8)) {
        current_length = LLVMFuzzerCustomCrossOver(one->octets, one->length, other->octets, other->length, current,
                                                   sizeof current, below(&dice, UINT32_MAX));
    }
    for (uint32_t more = 1 + below(&dice, 4); more > 0; more--) {
        current_length = LLVMFuzzerCustomMutator(current, current_length, sizeof current, below(&dice, UINT32_MAX));
    }
}

static void fuzz(unsigned long runs, unsigned long seed, const char *folder)
{
    dice = dice_of(seed);
    play_folder(folder);
    if (pooled == 0) {
        keep_current();
    }
    for (unsigned long run = 0; run < runs; run++) {
        change_current();
        if (play_current()) {
            keep_current();
        }
    }
}

static void print_hex(const char *command, const uint8_t *octets, size_t length)
{
    printf("%s", command);
    for (size_t i = 0; i < length; i++) {
        printf("%s%02X", i % 4 == 0 ? " " : "", octets[i]);
    }
    printf("\n");
}

/* Set-up, and what full tables have beyond it. */
static void print_start(uint16_t start)
{
    static uint8_t fresh[RB_BLOCK_SIZE], block[RB_BLOCK_SIZE];
    char command[32];

    start_bridge(fresh, (uint16_t)(start & ~START_FULL));
    start_bridge(block, start);
    printf("bridge %d 00:11:22:33:44:55%s%s\n", 1 + (start & START_PORTS), start & START_EDITION ? " edition 2" : "",
           start & START_DEVICE ? " device 2" : "");
    for (size_t at = 0; at < RB_BLOCK_SIZE; at += 32) {
        if (memcmp(block + at, fresh + at, 32) != 0) {
            snprintf(command, sizeof command, "poke %zu", at);
            print_hex(command, block + at, 32);
        }
    }
}

static void print_case(void)
{
    static struct input input;
    char command[32];

    input_read(&input, current, current_length);
    print_start(input.start);
    for (size_t i = 0; i < input.count; i++) {
        const struct step *step = &input.steps[i];

        if (step->tag == STEP_PATCH && step->length > 2) {
            snprintf(command, sizeof command, "poke %u", (unsigned)(step_number(step) % RB_BLOCK_SIZE));
            print_hex(command, step->octets + 2, step->length - 2);
        } else if (step->tag == STEP_ROOM) {
            printf("room %u\n", (unsigned)(step_number(step) % (STEP_ROOM_MAX + 1)));
        } else if (step->tag == STEP_SIZE) {
            printf("size %u\n", (unsigned)(step_number(step) % (STEP_SIZE_MAX + 1)));
        } else if (step->tag != STEP_PATCH) {
            print_hex("raw", step->octets, step->length);
        }
    }
}

int main(int argc, char **argv)
{
    static const int signals[] = {SIGABRT, SIGSEGV, SIGBUS, SIGILL, SIGFPE};

    for (size_t i = 0; i < sizeof signals / sizeof signals[0]; i++) {
        signal(signals[i], save_input);
    }
    if (argc == 4) {
        fuzz(strtoul(argv[1], NULL, 10), strtoul(argv[2], NULL, 10), argv[3]);
    } else if (argc == 3 && strcmp(argv[1], "--case") == 0) {
        load(argv[2]);
        print_case();
    } else if (argc == 2) {
        load(argv[1]);
        play_current();
    } else {
        stop("usage", "answer_plain RUNS SEED FOLDER | FILE | --case FILE");
    }
    return 0;
}
