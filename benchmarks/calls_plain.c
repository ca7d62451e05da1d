#include "calls.h"
#include "plain_fortuna.h"

static plain_state state;
static plain_quota quotas[PLAIN_QUOTAS];
static size_t listed;
static uint32_t reading = 1000;

bool call_new(void) {
    plain_new(&state);
    return true;
}

bool call_event(uint32_t pool, const uint8_t data[32]) {
    return plain_event(&state, 0, pool, data, 32) == 0;
}

/* Pool 0 has its 64 bytes, so that a request 101 ms after the last reseed makes one; later ones at the same reading make
   none. */
bool call_reseed(void) {
    uint32_t emptied;
    uint8_t none;
    reading += 101;
    return plain_request(&state, reading, &none, 0, &emptied) == 0 && emptied > 0;
}

bool call_request(uint8_t *out, size_t length) {
    uint32_t emptied;
    return plain_request(&state, reading, out, length, &emptied) == 0 && emptied == 0;
}

bool call_update(uint8_t seed[64]) {
    uint32_t emptied;
    return plain_update(&state, reading, seed, 64, &emptied) == 0 && emptied == 0;
}

bool call_quotas(size_t records, bool falling) {
    listed = records;
    for (uint32_t i = 0; i < records; i++)
        quotas[i] = (plain_quota){.source = falling ? (uint32_t)records - 1 - i : i, .allowance = UINT32_MAX};
    return true;
}

bool call_metered_event(uint32_t source, uint32_t pool, const uint8_t data[32]) {
    return plain_metered_event(&state, quotas, listed, source, pool, data, 32) == 0;
}

bool call_metered_request(uint8_t *out, size_t length) {
    uint32_t emptied;
    return plain_metered_request(&state, quotas, listed, reading, out, length, &emptied) == 0 && emptied == 0;
}

void pool_sum(uint32_t sum[8]) {
    for (int i = 0; i < 32; i++)
        for (int j = 0; j < 8; j++) sum[j] += state.pools[i].chain[j];
}
