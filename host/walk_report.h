/* What a comparison of two walks found, in words. */
#ifndef HOST_WALK_REPORT_H
#define HOST_WALK_REPORT_H

#include <stddef.h>
#include <stdint.h>

#include "refbridge.h"

/* The octets of a walk. */
struct walk {
    const uint8_t *octets;
    size_t count;
};

/* Prints a line for each entry of the list, one for the tail and one with the totals. */
void walk_report(const struct walk *reference, const struct walk *device, const uint8_t *list, const rb_walks *walks);

#endif
