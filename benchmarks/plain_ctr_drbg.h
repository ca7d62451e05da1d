/* CTR_DRBG of NIST SP 800-90A (10.2.1) with AES-256 and no derivation function, in plain C over libtomcrypt's AES-256:
   the same calls and refusals as the proved library has, written the usual way, on a state that the caller keeps. */
#ifndef PLAIN_CTR_DRBG_H
#define PLAIN_CTR_DRBG_H

#include <stddef.h>
#include <stdint.h>

/* V has its most significant byte first. The reseed counter is 0 before the first seeding. */
typedef struct {
    uint8_t key[32];
    uint8_t v[16];
    uint64_t reseed_counter;
} plain_ctr_drbg;

void plain_ctr_drbg_new(plain_ctr_drbg *s);

/* Each returns 0 or a refusal's number (40, 41, 14, 42). After a refusal state and buffer are as before. */
uint32_t plain_ctr_drbg_instantiate(plain_ctr_drbg *s, const uint8_t *entropy, size_t length,
                                    const uint8_t *personalization, size_t personalization_length);
uint32_t plain_ctr_drbg_reseed(plain_ctr_drbg *s, const uint8_t *entropy, size_t length, const uint8_t *additional,
                               size_t additional_length);
uint32_t plain_ctr_drbg_generate(plain_ctr_drbg *s, uint8_t *out, size_t length, const uint8_t *additional,
                                 size_t additional_length);

#endif
