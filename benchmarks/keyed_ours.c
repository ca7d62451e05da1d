#include "keyed.h"
#include "fortuna.h"

static fortuna_keyed state;

bool keyed_new(const uint8_t scheduler_key[32]) {
    state = fortuna_keyed_new(scheduler_key);
    return true;
}

bool keyed_event(uint64_t step, const uint8_t data[32], bool empties) {
    state.step = step;
    fortuna_answer a = fortuna_keyed_event(&state, 0, data, 32);
    return a.number == FORTUNA_DONE && a.emptied == empties;
}

bool keyed_request(uint8_t *out, size_t length) {
    return fortuna_keyed_request(&state, out, length).number == FORTUNA_DONE;
}

bool keyed_update(uint8_t seed[64]) {
    return fortuna_keyed_update(&state, seed, 64).number == FORTUNA_DONE;
}

void pool_sum(uint32_t sum[8]) {
    for (int i = 0; i < 32; i++)
        for (int j = 0; j < 8; j++) sum[j] += state.pools[i].chain[j];
}
