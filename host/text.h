/* Reading a line of a case file: words, numbers, octets in hex. */
#ifndef HOST_TEXT_H
#define HOST_TEXT_H

#include <stdbool.h>
#include <stddef.h>
#include <stdint.h>

/* A part of a line that is still to be read. */
struct text {
    const char *at;
    const char *end;
};

/* Why a line cannot be read. */
struct complaint {
    char words[200];
};

/* Octets of a request, an address or a poke. Over RB_MESSAGE_MAX, so that a request that is too long can be tried. */
#define OCTETS_MAX 4096u
struct octets {
    size_t count;
    uint8_t at[OCTETS_MAX];
};

/* Notes the reason and returns false, so that a reader can end with `return complain(..)`. */
bool complain(struct complaint *why, const char *format, ...) __attribute__((format(printf, 2, 3)));

/* The length of a text, cut to what a complaint quotes of it. */
int text_quoted(struct text text);

void text_skip_blanks(struct text *text);

/* True where nothing but blanks and a comment is left. A '#' inside a word starts no comment. */
bool text_is_done(struct text *text);

/* Takes the characters up to the next blank, or up to the first of `stops`; there may be none. */
struct text text_run(struct text *text, const char *stops);

/* The same after skipping blanks. */
struct text text_word(struct text *text, const char *stops);

bool text_is(struct text word, const char *literal);

/* Reads a whole word as a decimal number of at most `most`. */
bool text_number(struct text word, uint64_t most, uint64_t *number);

/* Adds the octets of a word of hex digits. */
bool text_hex(struct text word, struct octets *octets, struct complaint *why);

/* Adds the octets of all words that are left. */
bool text_hex_words(struct text *text, struct octets *octets, struct complaint *why);

/* Takes a word that must be a number of at most `most`; `what` names it in a complaint. */
bool text_take_number(struct text *text, const char *what, uint64_t most, uint64_t *number, struct complaint *why);

#endif
