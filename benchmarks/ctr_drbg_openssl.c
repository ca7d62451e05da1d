#include "ctr_drbg.h"
#include <openssl/core_names.h>
#include <openssl/evp.h>
#include <openssl/params.h>

enum { STRENGTH = 256 };

static EVP_RAND_CTX *source, *state;

static EVP_RAND_CTX *context(const char *name, EVP_RAND_CTX *parent) {
    EVP_RAND *kind = EVP_RAND_fetch(NULL, name, NULL);
    EVP_RAND_CTX *made = EVP_RAND_CTX_new(kind, parent);
    EVP_RAND_free(kind);
    return made;
}

/* A context has its entropy from another one. TEST-RAND gives the bytes it was told, the same at each seeding. */
bool drbg_entropy(const uint8_t input[SEED_LENGTH]) {
    unsigned strength = STRENGTH;
    const OSSL_PARAM params[] = {
        OSSL_PARAM_construct_uint(OSSL_RAND_PARAM_STRENGTH, &strength),
        OSSL_PARAM_construct_octet_string(OSSL_RAND_PARAM_TEST_ENTROPY, (void *)input, SEED_LENGTH),
        OSSL_PARAM_construct_end(),
    };
    if (source == NULL) source = context("TEST-RAND", NULL);
    return source != NULL && EVP_RAND_instantiate(source, STRENGTH, 0, NULL, 0, params) == 1;
}

/* It shall never reseed by itself, neither after so many requests nor after so many seconds. */
bool drbg_instantiate(const uint8_t *personalization, size_t length) {
    int derivation = 0;
    unsigned requests = 0;
    time_t interval = 0;
    const OSSL_PARAM params[] = {
        OSSL_PARAM_construct_utf8_string(OSSL_DRBG_PARAM_CIPHER, (char *)"AES-256-CTR", 0),
        OSSL_PARAM_construct_int(OSSL_DRBG_PARAM_USE_DF, &derivation),
        OSSL_PARAM_construct_uint(OSSL_DRBG_PARAM_RESEED_REQUESTS, &requests),
        OSSL_PARAM_construct_time_t(OSSL_DRBG_PARAM_RESEED_TIME_INTERVAL, &interval),
        OSSL_PARAM_construct_end(),
    };
    EVP_RAND_CTX_free(state);
    state = context("CTR-DRBG", source);
    return state != NULL && EVP_RAND_instantiate(state, STRENGTH, 0, personalization, length, params) == 1;
}

bool drbg_reseed(const uint8_t *additional, size_t length) {
    return EVP_RAND_reseed(state, 0, NULL, 0, additional, length) == 1;
}

bool drbg_request(uint8_t *out, size_t length, const uint8_t *additional, size_t additional_length) {
    return EVP_RAND_generate(state, out, length, STRENGTH, 0, additional, additional_length) == 1;
}
