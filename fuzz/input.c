#include "input.h"

#include <string.h>

uint32_t input_ports(const struct input *input)
{
    return 1u + (input->start & START_PORTS);
}

/* Takes one step from the octets; returns how many it took. */
static size_t read_step(struct step *step, const uint8_t *octets, size_t length)
{
    size_t left = length > 3 ? length - 3 : 0;
    size_t says = length > 2 ? (size_t)octets[1] << 8 | octets[2] : left;

    step->tag = octets[0];
    step->length = says < left ? says : left;
    if (step->length > STEP_MAX) {
        step->length = STEP_MAX;
    }
    memcpy(step->octets, octets + (length - left), step->length);
    return length - left + step->length;
}

void input_read(struct input *input, const uint8_t *octets, size_t length)
{
    size_t at = 2;

    input->start = length > 1 ? (uint16_t)(octets[0] << 8 | octets[1]) : 0;
    input->count = 0;
    while (at < length && input->count < STEPS_MAX) {
        at += read_step(&input->steps[input->count++], octets + at, length - at);
    }
}

size_t input_write(const struct input *input, uint8_t *octets, size_t room)
{
    size_t at = 0;

    if (room < 2) {
        return 0;
    }
    octets[at++] = (uint8_t)(input->start >> 8);
    octets[at++] = (uint8_t)input->start;
    for (size_t i = 0; i < input->count; i++) {
        const struct step *step = &input->steps[i];

        if (room - at < 3 + step->length) {
            break;
        }
        octets[at++] = step->tag;
        octets[at++] = (uint8_t)(step->length >> 8);
        octets[at++] = (uint8_t)step->length;
        memcpy(octets + at, step->octets, step->length);
        at += step->length;
    }
    return at;
}

uint32_t step_number(const struct step *step)
{
    return step->length < 2 ? 0 : (uint32_t)step->octets[0] << 8 | step->octets[1];
}

void step_put_number(struct step *step, uint8_t tag, uint32_t number)
{
    step->tag = tag;
    step->length = 2;
    step->octets[0] = (uint8_t)(number >> 8);
    step->octets[1] = (uint8_t)number;
}
