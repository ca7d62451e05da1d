#include "calls.h"
#include <tomcrypt.h>

static prng_state state;

bool call_new(void) {
    return fortuna_start(&state) == CRYPT_OK;
}

/* The library picks the pool, takes 0 as the source, and puts source, length and data in, the source as one byte where
   ours has two. */
bool call_event(uint32_t pool, const uint8_t data[32]) {
    return state.fortuna.pool_idx == pool && fortuna_add_entropy(data, 32, &state) == CRYPT_OK;
}

bool call_reseed(void) {
    return fortuna_ready(&state) == CRYPT_OK;
}

/* It would reseed inside the tenth read if pool 0 then had 64 bytes of data; here it has 32. */
bool call_request(uint8_t *out, size_t length) {
    return fortuna_read(out, length, &state) == length && state.fortuna.reset_cnt == 1;
}

/* Its import starts all anew from 1,024 bytes or more, and draws nothing to put in their place. */
bool call_update(uint8_t seed[64]) {
    (void)seed;
    return false;
}

/* It has no quotas. */
bool call_quotas(size_t records, bool falling) {
    (void)records;
    (void)falling;
    return false;
}

bool call_metered_event(uint32_t source, uint32_t pool, const uint8_t data[32]) {
    (void)source;
    (void)pool;
    (void)data;
    return false;
}

bool call_metered_request(uint8_t *out, size_t length) {
    (void)out;
    (void)length;
    return false;
}

void pool_sum(uint32_t sum[8]) {
    for (int i = 0; i < 32; i++)
        for (int j = 0; j < 8; j++) sum[j] += state.fortuna.pool[i].sha256.state[j];
}
