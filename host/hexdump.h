/* Where a request broke: the octets around the offset that a refusal 4 to 8 has. */
#ifndef HOST_HEXDUMP_H
#define HOST_HEXDUMP_H

#include <stddef.h>
#include <stdint.h>
#include <stdio.h>

/* Prints some octets on both sides of the offset; the one that stands there is in brackets. Where the offset is the
 * request's end, brackets say that a field would be there. The offset is at most the count. */
void broken_print(FILE *out, const uint8_t *request, size_t count, size_t offset);

#endif
