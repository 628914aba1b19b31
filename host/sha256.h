/* SHA-256 (FIPS 180-4), to tell whether a file is the one that was meant. */
#ifndef HOST_SHA256_H
#define HOST_SHA256_H

#include <stddef.h>

#define SHA256_DIGITS 64

/* Writes the hash of these octets as hex digits in lower case, with a 0 at the end. */
void sha256_hex(const void *octets, size_t count, char hex[SHA256_DIGITS + 1]);

#endif
