#include "findings.h"

#include <stdarg.h>
#include <stdio.h>

enum { SHOWN = 5 }; /* differences of a fact that are printed */

const char *const fact_words[FACTS] = {
    [FACT_INDEX] = "index",   [FACT_DEVICE] = "device", [FACT_GROUP] = "group", [FACT_TYPE] = "type",
    [FACT_ACCESS] = "access", [FACT_LOW] = "low",       [FACT_HIGH] = "high",   [FACT_STEP] = "step",
    [FACT_SOURCE] = "source", [FACT_FRESH] = "fresh",   [FACT_ORDER] = "order",
};

void compare(struct findings *findings, enum fact fact, bool same, const struct bridge *bridge,
             const struct object *object, const char *format, ...)
{
    va_list arguments;

    findings->compared[fact]++;
    if (same) {
        return;
    }
    findings->differing[fact]++;
    if (findings->quiet || findings->differing[fact] > SHOWN) {
        return;
    }
    printf("DIFFERS: %s of %s, ", fact_words[fact], object->name);
    if (bridge == NULL) {
        printf("all bridges: ");
    } else {
        printf("device %u, edition %u, %u ports, %u VLANs: ", bridge->device, bridge->edition, bridge->ports,
               bridge->vlans);
    }
    va_start(arguments, format);
    vprintf(format, arguments);
    va_end(arguments);
    putchar('\n');
}

static unsigned long sum(const unsigned long of[FACTS])
{
    unsigned long all = 0;

    for (size_t i = 0; i < FACTS; i++) {
        all += of[i];
    }
    return all;
}

unsigned long compared_in_all(const struct findings *findings)
{
    return sum(findings->compared);
}

unsigned long differing_in_all(const struct findings *findings)
{
    return sum(findings->differing);
}
