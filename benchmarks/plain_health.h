/* The repetition count and adaptive proportion tests of NIST SP 800-90B in plain C: the same call, refusals and check
   of the test state as the proved library has, written the usual way. */
#ifndef PLAIN_HEALTH_H
#define PLAIN_HEALTH_H

#include <stdbool.h>
#include <stddef.h>
#include <stdint.h>

/* The last sample, how often it has come in a row, the window's first sample, how often that has come in the window,
   and how many samples the window has seen. Fresh: all 0. */
typedef struct {
    uint32_t last, run, first, count, seen;
} plain_health;

/* 0, 34 or 35; the tests that the sample at place fails. */
typedef struct {
    uint32_t number;
    bool repetition, proportion;
    size_t place;
} plain_answer;

/* Up to the first sample that fails, after which the state is fresh. After a refusal it is as before. */
plain_answer plain_test(plain_health *state, const uint32_t *samples, size_t length, uint32_t repetition,
                        uint32_t proportion);

static inline bool plain_passed(plain_answer a)
{
    return a.number == 0 && !a.repetition && !a.proportion;
}

#endif
