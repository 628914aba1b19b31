/* The form of a fuzzer's input: how the bridge starts, then steps.
 *
 * The first two octets are a number: its low six bits are the number of ports less one; the bit 0x40 says that the growing
 * tables have all rows that there can be, the bit 0x80 that the bridge is of edition 2, the bit 0x100 that it is a
 * source-routing one, device 2. Then each step is a field as in a message: a tag, two octets of length, contents. An input
 * that is cut is taken as far as it goes, so that every input is one. */
#ifndef FUZZ_INPUT_H
#define FUZZ_INPUT_H

#include <stdbool.h>
#include <stddef.h>
#include <stdint.h>

enum {
    STEPS_MAX = 40,
    STEP_MAX = 2048,   /* octets of a step's contents: over a request's, so that too long ones arise */
    INPUT_MAX = 16384, /* octets of an input */
    STEP_ROOM_MAX = 4096,
    STEP_SIZE_MAX = 40960
};

enum step_tag {
    STEP_REQUEST = 0xA0, /* asks; every other tag does too */
    STEP_PATCH = 0xA1,   /* two octets of place, then the octets that are written there, for the next request */
    STEP_ROOM = 0xA2,    /* two octets: the length of the room that the next request is given */
    STEP_SIZE = 0xA3     /* two octets: the length of the block that the next request is given */
};

enum { START_PORTS = 0x3F, START_FULL = 0x40, START_EDITION = 0x80, START_DEVICE = 0x100 };

struct step {
    uint8_t tag;
    size_t length;
    uint8_t octets[STEP_MAX];
};

struct input {
    uint16_t start;
    size_t count;
    struct step steps[STEPS_MAX];
};

uint32_t input_ports(const struct input *input);

void input_read(struct input *input, const uint8_t *octets, size_t length);

/* Writes as many steps as fit; returns the octets written. */
size_t input_write(const struct input *input, uint8_t *octets, size_t room);

/* The number in a step's first two octets, or 0 where there are none. */
uint32_t step_number(const struct step *step);

/* A step that has a number as its first two octets. */
void step_put_number(struct step *step, uint8_t tag, uint32_t number);

#endif
