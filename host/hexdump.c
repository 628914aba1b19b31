#include "hexdump.h"

#define AROUND 6u /* octets that are shown on each side: enough for a field's header and some of its contents */

void broken_print(FILE *out, const uint8_t *request, size_t count, size_t offset)
{
    size_t from = offset > AROUND ? offset - AROUND : 0;
    size_t to = count - offset > AROUND + 1 ? offset + AROUND + 1 : count;
    const char *blank = from > 0 ? " " : "";

    fputs(from > 0 ? ".." : "", out);
    for (size_t i = from; i < to; i++) {
        fprintf(out, i == offset ? "%s[%02X]" : "%s%02X", blank, request[i]);
        blank = " ";
    }
    if (offset == count) {
        fprintf(out, "%s[would be here]", blank);
    }
    fputs(to < count ? " .." : "", out);
}
