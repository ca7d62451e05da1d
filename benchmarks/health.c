/* WORK COUNT: runs the health tests of the implementation linked in, and prints the seconds and what it ended with.
   by512, by16: COUNT times 65,536 samples of 8 bits that pass, in calls of 512 or of 16 samples on one state. answers:
   COUNT calls on states, cutoffs and samples of all kinds, malformed and stuck ones too; what it ends with is made of
   every answer and every state left. */
#include "health.h"
#include "numbers.h"
#include "timing.h"
#include <stdio.h>
#include <stdlib.h>
#include <string.h>

enum { SAMPLES = 65536, MOST = 600 };

static uint64_t mixed = 1;

static void mix(const uint32_t *numbers, size_t count) {
    for (size_t i = 0; i < count; i++) mixed = (mixed ^ numbers[i]) * UINT64_C(0x100000001b3);
}

static void pass(const uint32_t *samples, size_t size, size_t count) {
    for (size_t i = 0; i < count; i++)
        for (size_t at = 0; at < SAMPLES; at += size)
            if (!health_pass(samples + at, size)) exit(1);
}

/* A state for these cutoffs: nearly all near a border of what is refused, and some fresh ones. */
static void pick_state(uint32_t fields[FIELDS], uint32_t repetition, uint32_t proportion) {
    memset(fields, 0, FIELDS * sizeof *fields);
    if (below(4) == 0) return;
    fields[0] = below(2);
    fields[1] = below(3) ? below(3) : repetition - below(3);
    fields[2] = below(2);
    fields[3] = below(3) ? below(3) : proportion - below(3);
    fields[4] = below(3) ? fields[3] + below(3) : 513 - below(4);
}

/* Samples with few values, so that they repeat. */
static void answers(size_t count) {
    static const uint32_t cutoffs[] = {0, 1, 2, 3, 4, 31, 325, 511, 512, 513, UINT32_MAX};
    uint32_t samples[MOST], fields[FIELDS], answer[ANSWER];
    for (size_t i = 0; i < count; i++) {
        const uint32_t repetition = below(2) ? 2 + below(20) : cutoffs[below(11)];
        const uint32_t proportion = below(2) ? 2 + below(511) : cutoffs[below(11)];
        const uint32_t values = 1 + below(4), length = below(MOST + 1);
        pick_state(fields, repetition, proportion);
        for (uint32_t j = 0; j < length; j++) samples[j] = below(values);
        health_call(fields, samples, length, repetition, proportion, answer);
        mix(fields, FIELDS);
        mix(answer, ANSWER);
    }
}

int main(int argc, char **argv) {
    static uint32_t samples[SAMPLES];
    if (argc != 3) return 2;
    const size_t count = strtoul(argv[2], NULL, 10);
    for (size_t i = 0; i < SAMPLES; i++) samples[i] = below(256);
    double start = now();
    if (strcmp(argv[1], "answers") == 0) answers(count);
    else pass(samples, strcmp(argv[1], "by512") == 0 ? 512 : 16, count);
    printf("%.6f %016llx\n", now() - start, (unsigned long long)mixed);
    return 0;
}
