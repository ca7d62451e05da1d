#include "ctr_drbg.h"
#include "fortuna.h"
#include <string.h>

static fortuna_ctr_drbg state;
static uint8_t entropy[SEED_LENGTH];

bool drbg_entropy(const uint8_t input[SEED_LENGTH]) {
    memcpy(entropy, input, SEED_LENGTH);
    return true;
}

bool drbg_instantiate(const uint8_t *personalization, size_t length) {
    return fortuna_ctr_drbg_instantiate(&state, entropy, SEED_LENGTH, personalization, length) == FORTUNA_DONE;
}

bool drbg_reseed(const uint8_t *additional, size_t length) {
    return fortuna_ctr_drbg_reseed(&state, entropy, SEED_LENGTH, additional, length) == FORTUNA_DONE;
}

bool drbg_request(uint8_t *out, size_t length, const uint8_t *additional, size_t additional_length) {
    return fortuna_ctr_drbg_generate(&state, out, length, additional, additional_length) == FORTUNA_DONE;
}
