#include "plain_ctr_drbg.h"
#include <string.h>
#include <tomcrypt.h>

enum { SEED = 48, MAX_REQUEST = 65536 };
static const uint64_t reseed_interval = UINT64_C(1) << 48;

/* It stops where the carry does, as is usual: a branch by secret bits, which the proved library does without. */
static void increment(uint8_t v[16])
{
    for (int i = 15; i >= 0; i--)
        if (++v[i] != 0) return;
}

static void block(plain_ctr_drbg *s, symmetric_key *k, uint8_t out[16])
{
    increment(s->v);
    aes_enc_ecb_encrypt(s->v, out, k);
}

static void blocks(plain_ctr_drbg *s, symmetric_key *k, uint8_t *out, size_t length)
{
    for (; length >= 16; length -= 16, out += 16) block(s, k, out);
    if (length > 0) {
        uint8_t last[16];
        block(s, k, last);
        memcpy(out, last, length);
    }
}

/* Output, then an update with the provided data. The key is expanded once for both. */
static void fill_and_update(plain_ctr_drbg *s, const uint8_t provided[SEED], uint8_t *out, size_t length)
{
    symmetric_key k;
    uint8_t temp[SEED];
    aes_enc_setup(s->key, sizeof s->key, 0, &k);
    blocks(s, &k, out, length);
    blocks(s, &k, temp, SEED);
    for (int i = 0; i < SEED; i++) temp[i] ^= provided[i];
    memcpy(s->key, temp, sizeof s->key);
    memcpy(s->v, temp + sizeof s->key, sizeof s->v);
}

static void update(plain_ctr_drbg *s, const uint8_t provided[SEED])
{
    fill_and_update(s, provided, NULL, 0);
}

static void pad(uint8_t padded[SEED], const uint8_t *input, size_t length)
{
    memset(padded, 0, SEED);
    memcpy(padded, input, length);
}

static void seed(plain_ctr_drbg *s, const uint8_t entropy[SEED], const uint8_t *other, size_t other_length)
{
    uint8_t material[SEED];
    pad(material, other, other_length);
    for (int i = 0; i < SEED; i++) material[i] ^= entropy[i];
    update(s, material);
    s->reseed_counter = 1;
}

void plain_ctr_drbg_new(plain_ctr_drbg *s)
{
    memset(s, 0, sizeof *s);
}

uint32_t plain_ctr_drbg_instantiate(plain_ctr_drbg *s, const uint8_t *entropy, size_t length,
                                    const uint8_t *personalization, size_t personalization_length)
{
    if (length != SEED) return 40;
    if (personalization_length > SEED) return 41;
    plain_ctr_drbg_new(s);
    seed(s, entropy, personalization, personalization_length);
    return 0;
}

uint32_t plain_ctr_drbg_reseed(plain_ctr_drbg *s, const uint8_t *entropy, size_t length, const uint8_t *additional,
                               size_t additional_length)
{
    if (length != SEED) return 40;
    if (additional_length > SEED) return 41;
    if (s->reseed_counter == 0) return 42;
    seed(s, entropy, additional, additional_length);
    return 0;
}

uint32_t plain_ctr_drbg_generate(plain_ctr_drbg *s, uint8_t *out, size_t length, const uint8_t *additional,
                                 size_t additional_length)
{
    uint8_t provided[SEED];
    if (additional_length > SEED) return 41;
    if (length > MAX_REQUEST) return 14;
    if (s->reseed_counter == 0 || s->reseed_counter > reseed_interval) return 42;
    pad(provided, additional, additional_length);
    if (additional_length > 0) update(s, provided);
    fill_and_update(s, provided, out, length);
    s->reseed_counter++;
    return 0;
}
