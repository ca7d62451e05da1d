/* The health tests that are measured; a file for each implementation defines them. */
#ifndef HEALTH_H
#define HEALTH_H

#include <stdbool.h>
#include <stddef.h>
#include <stdint.h>

/* With 1 bit of entropy a sample and a false-alarm rate of 2^-30. */
enum { REPETITION = 31, PROPORTION = 325 };

enum { FIELDS = 5, ANSWER = 4 };

/* Whether samples pass with these cutoffs, on a state of the implementation's own, which is fresh at the start. */
bool health_pass(const uint32_t *samples, size_t length);

/* A call on any state, which stands in fields: last sample, run length, window's first sample, its count, samples seen.
   The state left stands there after, and in answer the number, the two tests and the place. */
void health_call(uint32_t fields[FIELDS], const uint32_t *samples, size_t length, uint32_t repetition,
                 uint32_t proportion, uint32_t answer[ANSWER]);

#endif
