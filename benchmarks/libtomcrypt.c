#include "work.h"
#include <tomcrypt.h>

void work_sha256(const uint8_t *data, size_t length, uint8_t digest[32]) {
    hash_state s;
    sha256_init(&s);
    sha256_process(&s, data, length);
    sha256_done(&s, digest);
}

/* The zero block is hashed once, and each D goes on from there. */
void work_sha_d256(size_t count, uint8_t message[32]) {
    static const uint8_t zeros[64];
    hash_state s, after_zeros;
    sha256_init(&after_zeros);
    sha256_process(&after_zeros, zeros, sizeof zeros);
    for (size_t i = 0; i < count; i++) {
        s.sha256 = after_zeros.sha256;
        sha256_process(&s, message, 32);
        sha256_done(&s, message);
        work_sha256(message, 32, message);
    }
}

void work_aes256(const uint8_t key[32], size_t count, uint8_t block[16]) {
    symmetric_key k;
    aes_enc_setup(key, 32, 0, &k);
    for (size_t i = 0; i < count; i++) aes_enc_ecb_encrypt(block, block, &k);
}

void work_expand(uint8_t key[32], size_t count) {
    for (size_t i = 0; i < count; i++) {
        symmetric_key k;
        aes_enc_setup(key, 32, 0, &k);
        for (int j = 0; j < 8; j++) STORE32H(k.rijndael.eK[52 + j], key + 4 * j);
    }
}
