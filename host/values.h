/* Contents of bindings, written TYPE:VALUE: read from a case file, compared, printed. */
#ifndef HOST_VALUES_H
#define HOST_VALUES_H

#include <stdio.h>

#include "objects.h"
#include "text.h"

#define STRING_MAX 255u
struct value {
    uint8_t tag; /* one of enum rb_tag */
    bool ports;  /* it was written as a list of ports; then octets after count are 0, up to the eighth */
    size_t count;
    uint8_t octets[STRING_MAX];
};

/* Takes TYPE:VALUE. integer, unsigned and counter have a decimal number; string has text, in quotes where it holds
 * blanks; hex has a string's octets; ports has a list as 1,3,5-8, or none. */
bool value_read(struct text *text, struct value *value, struct complaint *why);

/* Takes what an answer may hold: the above, noSuchObject, noSuchInstance or endOfMibView. */
bool value_read_answered(struct text *text, struct value *value, struct complaint *why);

/* The tag of noSuchObject, noSuchInstance or endOfMibView, or 0 for another word. */
uint8_t value_exception(struct text word);

/* True where an answer's content is the expected one. A bridge with that many ports answers port sets of
 * (ports + 7) / 8 octets. */
bool value_is(const struct value *got, const struct value *expected, uint32_t ports);

/* Prints a content in the form that is read; the object, if known, says how a string is shown. */
void value_print(FILE *out, const struct value *value, const struct object *object, uint32_t ports);

/* Prints a string as a list of ports; ports one after the other are shown as LOW-HIGH. */
void value_print_ports(FILE *out, const struct value *value);

#endif
