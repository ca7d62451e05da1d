/* COUNT: holds the plain C to the proved library on COUNT calls with pools chosen by key, with states and lengths of
   all kinds, refused ones too. Answers, states and buffers must be the same. */
#include "fortuna.h"
#include "numbers.h"
#include "plain_fortuna.h"
#include <stdio.h>
#include <stdlib.h>
#include <string.h>

enum { DATA = 34, BUFFER = 130, SEED = 64 };

static fortuna_keyed ours;
static plain_keyed plain;
static uint8_t bytes[BUFFER], plain_bytes[BUFFER];

static void same(bool yes) {
    if (yes) return;
    fprintf(stderr, "keyed_answers: ours and the plain C differ\n");
    exit(1);
}

/* One of three, as a rule the first. */
static uint64_t mostly(uint64_t usual, uint64_t one, uint64_t other) {
    const uint32_t which = below(24);
    return which == 0 ? one : which == 1 ? other : usual;
}

/* A pool's length is small, about a block's border, or about the largest; now and then a byte is wrong. */
static void pick_pool(fortuna_pool *p, const fortuna_pool *empty) {
    static const uint64_t largest = (UINT64_C(1) << 61) - 65;
    *p = *empty;
    p->length = below(4) ? below(200) : largest - 40 + below(below(40) ? 41 : 43);
    pick(p->tail, p->length % 64);
    if (p->length >= 64)
        for (int i = 0; i < 8; i++) p->chain[i] = below(UINT32_MAX);
    if (below(400) == 0) p->tail[63] ^= 1;
    if (below(400) == 0) p->chain[below(8)] ^= 1;
}

/* Steps about multiples of 32 * 2^i, and the last ones. */
static uint64_t pick_step(void) {
    const uint64_t multiple = (UINT64_C(32) << below(40)) * below(5);
    return below(8) ? multiple + below(3) - 1 : UINT64_MAX - below(3);
}

/* K and C of all kinds, C near its end too; now and then a field that must be 0 is not. */
static void pick_fields(void) {
    pick(ours.generator.key, sizeof ours.generator.key);
    memset(ours.generator.counter, 0xff, sizeof ours.generator.counter);
    if (below(2)) pick(ours.generator.counter, sizeof ours.generator.counter);
    else ours.generator.counter[0] = (uint8_t)(0xff - below(12));
    if (below(6) == 0) memset(&ours.generator, 0, mostly(sizeof ours.generator, 0, sizeof ours.generator.key));
    if (below(40) == 0) memset(ours.generator.counter, 0, sizeof ours.generator.counter);
    ours.last_reseed = (uint32_t)mostly(0, 0, below(2));
    ours.reseed_count = (uint32_t)mostly(0, 0, below(2));
    ours.reseeded = mostly(0, 0, below(2));
    ours.key_requests = (uint16_t)mostly(0, 1, UINT16_MAX - below(2));
}

static void copy_state(void) {
    memcpy(plain.station.key, ours.generator.key, sizeof plain.station.key);
    memcpy(plain.station.counter, ours.generator.counter, sizeof plain.station.counter);
    memcpy(plain.station.pools, ours.pools, sizeof plain.station.pools);
    plain.station.last_reseed = ours.last_reseed;
    plain.station.reseed_count = ours.reseed_count;
    plain.station.reseeded = ours.reseeded;
    plain.station.key_requests = ours.key_requests;
    memcpy(plain.scheduler_key, ours.scheduler_key, sizeof plain.scheduler_key);
    plain.step = ours.step;
}

static void pick_state(void) {
    uint8_t scheduler_key[32];
    pick(scheduler_key, sizeof scheduler_key);
    ours = fortuna_keyed_new(scheduler_key);
    const fortuna_pool empty = ours.pools[0];
    for (int i = 0; i < 32; i++)
        if (below(4)) pick_pool(&ours.pools[i], &empty);
    pick_fields();
    ours.step = pick_step();
    copy_state();
}

static void same_state(void) {
    same(memcmp(plain.station.key, ours.generator.key, sizeof plain.station.key) == 0);
    same(memcmp(plain.station.counter, ours.generator.counter, sizeof plain.station.counter) == 0);
    same(memcmp(plain.station.pools, ours.pools, sizeof plain.station.pools) == 0);
    same(plain.station.last_reseed == ours.last_reseed && plain.station.reseed_count == ours.reseed_count);
    same(plain.station.reseeded == ours.reseeded && plain.station.key_requests == ours.key_requests);
    same(memcmp(plain.scheduler_key, ours.scheduler_key, sizeof plain.scheduler_key) == 0 && plain.step == ours.step);
}

static uint32_t event(void) {
    uint32_t emptied;
    const uint32_t source = below(65536 + 2000);
    const size_t length = below(DATA);
    const uint32_t number = plain_keyed_event(&plain, source, bytes, length, &emptied);
    const fortuna_answer a = fortuna_keyed_event(&ours, source, bytes, length);
    same(a.number == number && a.emptied == emptied);
    return number;
}

/* A request, an update or a write, by 64 bytes as a rule. */
static uint32_t draw(uint32_t kind) {
    const size_t length = below(4) ? SEED : below(BUFFER);
    if (below(8) == 0) memset(bytes, bytes[0], sizeof bytes);
    memcpy(plain_bytes, bytes, sizeof bytes);
    const fortuna_answer a = kind == 0   ? fortuna_keyed_request(&ours, bytes, length)
                             : kind == 1 ? fortuna_keyed_update(&ours, bytes, length)
                                         : fortuna_keyed_write(&ours, bytes, length);
    const uint32_t number = kind == 0   ? plain_keyed_request(&plain, plain_bytes, length)
                            : kind == 1 ? plain_keyed_update(&plain, plain_bytes, length)
                                        : plain_keyed_write(&plain, plain_bytes, length);
    same(a.number == number && a.emptied == 0 && memcmp(bytes, plain_bytes, sizeof bytes) == 0);
    return number;
}

int main(int argc, char **argv) {
    static const uint8_t wanted[] = {0, 11, 13, 15, 21, 22, 23, 24, 36, 45};
    size_t counts[256] = {0};
    if (argc != 2) return 2;
    for (size_t count = strtoul(argv[1], NULL, 10); count > 0; count--) {
        pick_state();
        pick(bytes, sizeof bytes);
        counts[below(2) ? event() : draw(below(3))]++;
        same_state();
    }
    for (size_t i = 0; i < sizeof wanted; i++) {
        if (counts[wanted[i]] > 0) continue;
        fprintf(stderr, "keyed_answers: no call was answered with %u\n", wanted[i]);
        return 1;
    }
    return 0;
}
