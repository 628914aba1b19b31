#define _POSIX_C_SOURCE 200809L
#include "submission.h"

#include <stdio.h>
#include <stdlib.h>
#include <string.h>

#include "sha256.h"

static const char manifest_word[] = "submission";

static bool is_manifest(const struct script *script)
{
    struct place place = SCRIPT_START;
    struct line line;

    return script_line(script, &place, &line) && text_is(text_word(&line.text, ""), manifest_word);
}

static size_t tell(const char *file, const char *reason)
{
    fprintf(stderr, "%s: %s\n", file, reason);
    return 1;
}

/* Loads the next file. One that was loaded before is an error: its cases would be played twice. */
static size_t add_file(struct submission *submission, const char *file)
{
    struct script *script = &submission->scripts[submission->count];
    struct complaint why;

    if (!script_load(script, file, &why)) {
        script_free(script);
        return tell(file, why.words);
    }
    for (size_t i = 0; i < submission->count; i++) {
        if (script_is_same(&submission->scripts[i], script)) {
            script_free(script);
            return tell(file, "the file is listed twice");
        }
    }
    submission->count++;
    return 0;
}

/* The name of a listed file, from this folder: it is listed from the manifest's, or by its whole path. */
static char *listed_name(const char *manifest, struct text name)
{
    const char *slash = strrchr(manifest, '/');
    size_t length = (size_t)(name.end - name.at);
    bool whole_path = length > 0 && name.at[0] == '/';
    size_t folder = slash == NULL || whole_path ? 0 : (size_t)(slash - manifest) + 1;
    char *whole = malloc(folder + length + 1);

    if (whole != NULL) {
        memcpy(whole, manifest, folder);
        memcpy(whole + folder, name.at, length);
        whole[folder + length] = '\0';
    }
    return whole;
}

/* Reading a manifest: `submission TITLE`, lines `file SHA256 NAME`, and `cases N`, which ends it. */
struct reading {
    struct submission *submission;
    size_t errors;
    bool titled;
    bool ended;
    uint64_t cases;
};

static bool add_listed(struct reading *reading, struct text text, struct complaint *why)
{
    struct submission *submission = reading->submission;
    struct text hash = text_word(&text, "");
    char found[SHA256_DIGITS + 1];
    char *name;
    size_t before = submission->count;

    text_skip_blanks(&text);
    if (hash.end - hash.at != SHA256_DIGITS || text.at == text.end) {
        return complain(why, "a file is listed as: file SHA256 NAME");
    }
    name = listed_name(submission->manifest.file, text);
    if (name == NULL) {
        return complain(why, "no memory");
    }
    submission->names[before] = name;
    reading->errors += add_file(submission, name);
    if (submission->count == before) {
        free(name);
        submission->names[before] = NULL;
        return true;
    }
    sha256_hex(submission->scripts[before].text, submission->scripts[before].size, found);
    if (!text_is(hash, found)) {
        reading->errors += tell(name, "the file has another SHA-256 than the manifest says: it is cut or changed");
    }
    return true;
}

static bool read_entry(struct reading *reading, struct text text, struct complaint *why)
{
    struct text word = text_word(&text, "");

    if (reading->ended) {
        return complain(why, "'cases N' ends a manifest, and this line follows it");
    }
    if (text_is(word, manifest_word) && !reading->titled) {
        reading->titled = true;
        return true;
    }
    if (text_is(word, "file")) {
        return add_listed(reading, text, why);
    }
    if (text_is(word, "cases")) {
        reading->ended = true;
        return text_take_number(&text, "the number of cases", UINT32_MAX, &reading->cases, why);
    }
    return complain(why, "a manifest has no '%.*s'", text_quoted(word), word.at);
}

static size_t read_manifest(struct submission *submission, uint64_t *cases)
{
    struct reading reading = {.submission = submission};
    struct place place = SCRIPT_START;
    struct complaint why;
    struct line line;

    while (script_line(&submission->manifest, &place, &line)) {
        if (!read_entry(&reading, line.text, &why)) {
            fprintf(stderr, "%s:%zu: %s\n", submission->manifest.file, line.number, why.words);
            reading.errors++;
        }
    }
    if (!reading.ended) {
        reading.errors += tell(submission->manifest.file, "'cases N' is missing at its end: the manifest may be cut");
    }
    *cases = reading.cases;
    return reading.errors;
}

/* Checks every line of every file that was loaded. */
static size_t check_all(struct submission *submission)
{
    struct ids ids = {.any = false};
    size_t errors = 0;

    for (size_t i = 0; i < submission->count; i++) {
        struct script *script = &submission->scripts[i];

        if (submission->manifest.text == NULL) {
            ids.any = false;
        }
        errors += script_check(script, &ids);
        submission->commands += script->commands;
        submission->cases += script->cases;
        submission->expected += script->expected;
    }
    return errors;
}

static size_t read_submission(struct submission *submission)
{
    uint64_t cases = 0;
    size_t errors;
    char words[120];

    free(submission->scripts);
    /* A line lists at most one file, and has at least one octet. */
    submission->scripts = calloc(submission->manifest.size, sizeof *submission->scripts);
    submission->names = calloc(submission->manifest.size, sizeof *submission->names);
    if (submission->scripts == NULL || submission->names == NULL) {
        return tell(submission->manifest.file, "no memory");
    }
    errors = read_manifest(submission, &cases);
    errors += check_all(submission);
    if (errors == 0 && submission->cases != cases) {
        snprintf(words, sizeof words, "the manifest says %llu cases, and its files have %zu", (unsigned long long)cases,
                 submission->cases);
        errors += tell(submission->manifest.file, words);
    }
    return errors;
}

size_t submission_read(struct submission *submission, char **files, size_t count)
{
    size_t errors = 0;

    *submission = (struct submission){.scripts = calloc(count, sizeof *submission->scripts)};
    if (submission->scripts == NULL) {
        return tell(files[0], "no memory");
    }
    for (size_t i = 0; i < count; i++) {
        errors += add_file(submission, files[i]);
    }
    if (count == 1 && submission->count == 1 && is_manifest(&submission->scripts[0])) {
        submission->manifest = submission->scripts[0];
        submission->count = 0;
        return read_submission(submission);
    }
    for (size_t i = 0; i < submission->count; i++) {
        if (is_manifest(&submission->scripts[i])) {
            errors += tell(submission->scripts[i].file, "a manifest is given alone");
        }
    }
    return errors + check_all(submission);
}

void submission_print(const struct submission *submission)
{
    char hex[SHA256_DIGITS + 1];

    printf("%s\n", manifest_word);
    for (size_t i = 0; i < submission->count; i++) {
        sha256_hex(submission->scripts[i].text, submission->scripts[i].size, hex);
        printf("file %s %s\n", hex, submission->scripts[i].file);
    }
    printf("cases %zu\n", submission->cases);
}

void submission_free(struct submission *submission)
{
    for (size_t i = 0; i < submission->count; i++) {
        script_free(&submission->scripts[i]);
        if (submission->names != NULL) {
            free(submission->names[i]);
        }
    }
    script_free(&submission->manifest);
    free(submission->scripts);
    free(submission->names);
}
