/* COUNT: holds the plain C to the proved library on COUNT calls of CTR_DRBG, with states and lengths of all kinds,
   refused ones too. Answers, states and buffers must be the same. */
#include "fortuna.h"
#include "numbers.h"
#include "plain_ctr_drbg.h"
#include <stdbool.h>
#include <stdio.h>
#include <stdlib.h>
#include <string.h>

enum { SEED = 48, LARGEST = 65537 };

static fortuna_ctr_drbg ours;
static plain_ctr_drbg plain;
static uint8_t bytes[LARGEST], plain_bytes[LARGEST], entropy[SEED + 1], other[SEED + 1];

static void same(bool yes) {
    if (yes) return;
    fprintf(stderr, "ctr_drbg_answers: ours and the plain C differ\n");
    exit(1);
}

/* The last bytes of V are FF, so that carries go to every byte and past the first. */
static void pick_state(void) {
    static const uint64_t border = UINT64_C(1) << 48;
    const uint64_t counters[] = {0, 1, 2, border - 1, border, border + 1, UINT64_MAX};
    const uint32_t carries = below(17);
    pick(ours.key, sizeof ours.key);
    pick(ours.v, sizeof ours.v);
    memset(ours.v + 16 - carries, 0xff, carries);
    ours.reseed_counter = counters[below(7)];
    memcpy(plain.key, ours.key, sizeof plain.key);
    memcpy(plain.v, ours.v, sizeof plain.v);
    plain.reseed_counter = ours.reseed_counter;
}

static void same_state(void) {
    same(memcmp(plain.key, ours.key, sizeof plain.key) == 0);
    same(memcmp(plain.v, ours.v, sizeof plain.v) == 0);
    same(plain.reseed_counter == ours.reseed_counter);
}

/* 47 to 49 bytes, as a rule 48. */
static size_t pick_entropy(void) {
    const size_t length = below(4) ? SEED : SEED - 1 + below(3);
    pick(entropy, length);
    return length;
}

static void instantiate(size_t other_length) {
    const size_t length = pick_entropy();
    same(fortuna_ctr_drbg_instantiate(&ours, entropy, length, other, other_length)
         == plain_ctr_drbg_instantiate(&plain, entropy, length, other, other_length));
}

static void reseed(size_t other_length) {
    const size_t length = pick_entropy();
    same(fortuna_ctr_drbg_reseed(&ours, entropy, length, other, other_length)
         == plain_ctr_drbg_reseed(&plain, entropy, length, other, other_length));
}

static void request(size_t other_length) {
    const size_t length = below(16) ? below(100) : LARGEST - below(3);
    same(fortuna_ctr_drbg_generate(&ours, bytes, length, other, other_length)
         == plain_ctr_drbg_generate(&plain, plain_bytes, length, other, other_length));
    same(memcmp(bytes, plain_bytes, length) == 0);
}

int main(int argc, char **argv) {
    if (argc != 2) return 2;
    for (size_t count = strtoul(argv[1], NULL, 10); count > 0; count--) {
        const uint32_t kind = below(4);
        const size_t other_length = below(2) ? below(SEED + 2) : 0;
        pick_state();
        pick(other, other_length);
        if (kind == 0) instantiate(other_length);
        else if (kind == 1) reseed(other_length);
        else request(other_length);
        same_state();
    }
    return 0;
}
