/* The bridge that an input starts with. */
#ifndef FUZZ_START_H
#define FUZZ_START_H

#include <stdint.h>

#include "reply.h"

/* Sets up a bridge as the first octets of an input say (input.h). Full tables are written as docs/LAYOUT.md tells:
 * VLANs 1 to 256, and static rows of 128 addresses 02:00:00:00:00:xx, each for receive ports 0 and 1; of a source-routing
 * bridge, the first 64 pairs of its ports, or all where they are fewer. */
void start_bridge(uint8_t *block, uint16_t start);

/* The ports, the edition and the device of the bridge in a legal block. */
struct bridge_kind kind_of(const uint8_t *block);

#endif
