/* The numbers of refusals and of faults, and their names. */
#ifndef HOST_CODES_H
#define HOST_CODES_H

#include <stdint.h>

#include "text.h"

/* The name of a refusal 1 to 25, or NULL. */
const char *refusal_name(uint32_t number);

/* True for 4 to 8, which have the offset where the request broke; with every other return the offset is 0. */
bool refusal_has_offset(uint32_t number);

/* The name of a status in RFC 3416, or NULL where this bridge never answers it. */
const char *status_name(uint32_t status);

/* Reads a status by number or by name. */
bool status_read(struct text word, uint32_t *status);

#endif
