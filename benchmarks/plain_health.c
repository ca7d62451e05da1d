#include "plain_health.h"

enum { WINDOW = 512 };

static bool bad_cutoff(uint32_t cutoff)
{
    return cutoff < 2 || cutoff > WINDOW;
}

static bool malformed(const plain_health *s, uint32_t repetition, uint32_t proportion)
{
    if (s->run >= repetition || s->count >= proportion) return true;
    if (s->count > s->seen || s->seen >= WINDOW) return true;
    if (s->seen > 0 && (s->count == 0 || s->run == 0)) return true;
    return (s->seen == 0 && s->first != 0) || (s->run == 0 && s->last != 0);
}

/* Before the window's first sample the count is 0. */
static void take(plain_health *s, uint32_t sample)
{
    s->run = sample == s->last ? s->run + 1 : 1;
    s->last = sample;
    if (s->seen == 0) s->first = sample;
    if (sample == s->first) s->count++;
    s->seen++;
}

/* The state is worked on in a copy, so that the compiler can keep it in registers. */
plain_answer plain_test(plain_health *state, const uint32_t *samples, size_t length, uint32_t repetition,
                        uint32_t proportion)
{
    plain_health s = *state;
    if (bad_cutoff(repetition) || bad_cutoff(proportion)) return (plain_answer){.number = 34};
    if (malformed(&s, repetition, proportion)) return (plain_answer){.number = 35};
    for (size_t i = 0; i < length; i++) {
        take(&s, samples[i]);
        if (s.run >= repetition || s.count >= proportion) {
            *state = (plain_health){0};
            return (plain_answer){0, s.run >= repetition, s.count >= proportion, i};
        }
        if (s.seen == WINDOW) s.first = s.count = s.seen = 0;
    }
    *state = s;
    return (plain_answer){0};
}
