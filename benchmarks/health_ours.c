#include "fortuna.h"
#include "health.h"

static fortuna_health kept;

bool health_pass(const uint32_t *samples, size_t length) {
    return fortuna_health_passed(fortuna_health_test(&kept, samples, length, REPETITION, PROPORTION));
}

void health_call(uint32_t fields[FIELDS], const uint32_t *samples, size_t length, uint32_t repetition,
                 uint32_t proportion, uint32_t answer[ANSWER]) {
    fortuna_health s = {fields[0], fields[1], fields[2], fields[3], fields[4]};
    fortuna_health_answer a = fortuna_health_test(&s, samples, length, repetition, proportion);
    fields[0] = s.last;
    fields[1] = s.run;
    fields[2] = s.first;
    fields[3] = s.count;
    fields[4] = s.seen;
    answer[0] = a.number;
    answer[1] = a.repetition;
    answer[2] = a.proportion;
    answer[3] = (uint32_t)a.place;
}
