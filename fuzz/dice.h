/* Numbers that look random and are the same for the same seed. */
#ifndef FUZZ_DICE_H
#define FUZZ_DICE_H

#include <stdbool.h>
#include <stdint.h>

struct dice {
    uint64_t state;
};

/* Seeds that are near each other give sequences that are not alike. */
static inline struct dice dice_of(uint64_t seed)
{
    return (struct dice){(seed + 1) * 0x9E3779B97F4A7C15u | 1};
}

/* A number from 0 to `count` - 1. */
static inline uint32_t below(struct dice *dice, uint32_t count)
{
    dice->state ^= dice->state << 13;
    dice->state ^= dice->state >> 7;
    dice->state ^= dice->state << 17;
    return (uint32_t)((dice->state * 0x2545F4914F6CDD1Du >> 32) % count);
}

/* True once in `count` times. */
static inline bool once_in(struct dice *dice, uint32_t count)
{
    return below(dice, count) == 0;
}

#endif
