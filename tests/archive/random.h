/* Requests that only look random: the same ones in every run of a seed. */
#ifndef RANDOM_H
#define RANDOM_H

#include "requests.h"

/* Starts the numbers anew. */
void chance_seed(uint64_t seed);

/* The next number, below a limit. */
uint32_t chance(uint32_t below);

/* A request with few bindings, at times with more than a request can have. */
void random_request(struct octets *r, enum rb_kind kind);

/* Changes, cuts or lengthens octets. */
void damage(struct octets *r);

#endif
