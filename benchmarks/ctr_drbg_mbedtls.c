#include "ctr_drbg.h"
#include <limits.h>
#include <mbedtls/aes.h>
#include <mbedtls/ctr_drbg.h>
#include <string.h>

/* mbedTLS 3 hides the names of fields. */
#ifndef MBEDTLS_PRIVATE
#define MBEDTLS_PRIVATE(name) name
#endif

static mbedtls_ctr_drbg_context state;
static uint8_t entropy[SEED_LENGTH];

bool drbg_entropy(const uint8_t input[SEED_LENGTH]) {
    memcpy(entropy, input, SEED_LENGTH);
    return true;
}

static int give_entropy(void *unused, unsigned char *out, size_t length) {
    (void)unused;
    if (length != SEED_LENGTH) return -1;
    memcpy(out, entropy, SEED_LENGTH);
    return 0;
}

/* Key and V after a first seeding with no derivation function: the blocks 1, 2 and 3 under a key of zeros, exclusive-or
   the entropy input. */
static bool seed_by_hand(void) {
    mbedtls_aes_context *aes = &state.MBEDTLS_PRIVATE(aes_ctx);
    uint8_t temp[SEED_LENGTH] = {0}, v[16] = {0};
    mbedtls_aes_setkey_enc(aes, temp, 256);
    for (int i = 0; i < 3; i++) {
        v[15]++;
        mbedtls_aes_crypt_ecb(aes, MBEDTLS_AES_ENCRYPT, v, temp + 16 * i);
    }
    for (int i = 0; i < SEED_LENGTH; i++) temp[i] ^= entropy[i];
    memcpy(state.MBEDTLS_PRIVATE(counter), temp + 32, 16);
    return mbedtls_aes_setkey_enc(aes, temp, 256) == 0;
}

/* Its own seeding derives Key and V by another way, so that they are put in its place after it. */
bool drbg_instantiate(const uint8_t *personalization, size_t length) {
    (void)personalization;
    if (length > 0) return false;
    mbedtls_ctr_drbg_free(&state);
    mbedtls_ctr_drbg_init(&state);
    if (mbedtls_ctr_drbg_seed(&state, give_entropy, NULL, NULL, 0) != 0) return false;
    mbedtls_ctr_drbg_set_reseed_interval(&state, INT_MAX);
    return seed_by_hand();
}

/* It has none without a derivation function. */
bool drbg_reseed(const uint8_t *additional, size_t length) {
    (void)additional;
    (void)length;
    return false;
}

/* Nor additional input. This call takes no lock, where mbedtls_ctr_drbg_random does. */
bool drbg_request(uint8_t *out, size_t length, const uint8_t *additional, size_t additional_length) {
    (void)additional;
    return additional_length == 0 && mbedtls_ctr_drbg_random_with_add(&state, out, length, NULL, 0) == 0;
}
