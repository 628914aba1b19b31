/* CRC-32 as in IEEE 802.3, which finds every damage of up to 32 bits in a row. */
#ifndef NIGHT_CRC_H
#define NIGHT_CRC_H

#include <stddef.h>
#include <stdint.h>

uint32_t crc32_of(const char *octets, size_t count);

#endif
