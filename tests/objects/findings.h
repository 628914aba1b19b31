/* What was compared, and which facts of the table the archive answered otherwise. */
#ifndef FINDINGS_H
#define FINDINGS_H

#include "bridges.h"

/* The columns of the table that the archive can tell, and the order of its rows. A wrong name is found as an object
 * that no device has. */
enum fact {
    FACT_INDEX,
    FACT_DEVICE,
    FACT_GROUP,
    FACT_TYPE,
    FACT_ACCESS,
    FACT_LOW,
    FACT_HIGH,
    FACT_STEP,
    FACT_SOURCE,
    FACT_FRESH,
    FACT_ORDER,
    FACTS
};

extern const char *const fact_words[FACTS];

struct findings {
    bool quiet; /* no difference is printed */
    unsigned long compared[FACTS];
    unsigned long differing[FACTS];
};

/* Notes a comparison with the answers of a bridge, or of all where that is NULL. The first differences are printed. */
void compare(struct findings *findings, enum fact fact, bool same, const struct bridge *bridge,
             const struct object *object, const char *format, ...) __attribute__((format(printf, 6, 7)));

unsigned long compared_in_all(const struct findings *findings);
unsigned long differing_in_all(const struct findings *findings);

#endif
