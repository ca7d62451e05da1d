#include "keyed.h"
#include "plain_fortuna.h"

static plain_keyed state;

bool keyed_new(const uint8_t scheduler_key[32]) {
    plain_keyed_new(&state, scheduler_key);
    return true;
}

bool keyed_event(uint64_t step, const uint8_t data[32], bool empties) {
    uint32_t emptied;
    state.step = step;
    return plain_keyed_event(&state, 0, data, 32, &emptied) == 0 && emptied == empties;
}

bool keyed_request(uint8_t *out, size_t length) {
    return plain_keyed_request(&state, out, length) == 0;
}

bool keyed_update(uint8_t seed[64]) {
    return plain_keyed_update(&state, seed, 64) == 0;
}

void pool_sum(uint32_t sum[8]) {
    for (int i = 0; i < PLAIN_POOLS; i++)
        for (int j = 0; j < 8; j++) sum[j] += state.station.pools[i].chain[j];
}
