#include "calls.h"
#include "fortuna.h"

static fortuna_state state;
static fortuna_quota quotas[64];
static size_t listed;
static uint32_t reading = 1000;

bool call_new(void) {
    state = fortuna_new();
    return true;
}

bool call_event(uint32_t pool, const uint8_t data[32]) {
    return fortuna_event(&state, 0, pool, data, 32) == FORTUNA_DONE;
}

/* Pool 0 has its 64 bytes, so that a request 101 ms after the last reseed makes one; later ones at the same reading make
   none. */
bool call_reseed(void) {
    uint8_t none;
    reading += 101;
    fortuna_answer a = fortuna_request(&state, reading, &none, 0);
    return a.number == FORTUNA_DONE && a.emptied > 0;
}

bool call_request(uint8_t *out, size_t length) {
    fortuna_answer a = fortuna_request(&state, reading, out, length);
    return a.number == FORTUNA_DONE && a.emptied == 0;
}

bool call_update(uint8_t seed[64]) {
    fortuna_answer a = fortuna_update(&state, reading, seed, 64);
    return a.number == FORTUNA_DONE && a.emptied == 0;
}

bool call_quotas(size_t records, bool falling) {
    listed = records;
    for (uint32_t i = 0; i < records; i++)
        quotas[i] = (fortuna_quota){.source = falling ? (uint32_t)records - 1 - i : i, .allowance = UINT32_MAX};
    return true;
}

bool call_metered_event(uint32_t source, uint32_t pool, const uint8_t data[32]) {
    return fortuna_metered_event(&state, quotas, listed, source, pool, data, 32) == FORTUNA_DONE;
}

bool call_metered_request(uint8_t *out, size_t length) {
    fortuna_answer a = fortuna_metered_request(&state, quotas, listed, reading, out, length);
    return a.number == FORTUNA_DONE && a.emptied == 0;
}

void pool_sum(uint32_t sum[8]) {
    for (int i = 0; i < 32; i++)
        for (int j = 0; j < 8; j++) sum[j] += state.pools[i].chain[j];
}
