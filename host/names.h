/* Names of instances: read from a case file, compared, printed. */
#ifndef HOST_NAMES_H
#define HOST_NAMES_H

#include <stdio.h>

#include "objects.h"
#include "text.h"

#define NAME_SUBS_MIN 2
#define NAME_SUBS_MAX 128
struct name {
    size_t count;
    uint32_t sub[NAME_SUBS_MAX];
};

/* Takes a whole name: an object's name with its index (dot1dStpPriority.0), numbers from 1.3.6 on, or any numbers after
 * a leading dot. It ends at a blank or at the first of `stops`. */
bool name_take(struct text *text, const char *stops, struct name *name, struct complaint *why);

/* Below 0, 0 or above 0, as `a` stands to `b`: sub-id by sub-id as numbers, a proper prefix is smaller. */
int name_order(const struct name *a, const struct name *b);

/* True where `root` is a proper prefix. */
bool name_is_under(const struct name *name, const struct name *root);

/* The object whose instance this may be, or NULL. */
const struct object *name_object(const struct name *name);

/* Prints a name in the form that name_take reads. */
void name_print(FILE *out, const struct name *name);

#endif
