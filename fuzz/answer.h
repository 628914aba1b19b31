/* What the harness has seen of the calls, for drivers that are not libFuzzer. */
#ifndef FUZZ_ANSWER_H
#define FUZZ_ANSWER_H

#include <stddef.h>
#include <stdint.h>

/* Outcomes that the last input reached, a counter for each: libFuzzer takes them as it takes covered code. */
enum { OUTCOMES = 4096 };
extern uint8_t outcomes[OUTCOMES];

int LLVMFuzzerTestOneInput(const uint8_t *octets, size_t length);
size_t LLVMFuzzerCustomMutator(uint8_t *octets, size_t length, size_t room, unsigned seed);
size_t LLVMFuzzerCustomCrossOver(const uint8_t *one, size_t one_length, const uint8_t *other, size_t other_length,
                                 uint8_t *octets, size_t room, unsigned seed);

#endif
