#include "work.h"
#include <nettle/aes.h>
#include <nettle/sha2.h>
#include <string.h>

void work_sha256(const uint8_t *data, size_t length, uint8_t digest[32]) {
    struct sha256_ctx s;
    sha256_init(&s);
    sha256_update(&s, length, data);
    sha256_digest(&s, 32, digest);
}

/* The zero block is hashed once, and each D goes on from there. */
void work_sha_d256(size_t count, uint8_t message[32]) {
    static const uint8_t zeros[64];
    struct sha256_ctx s, after_zeros;
    sha256_init(&after_zeros);
    sha256_update(&after_zeros, sizeof zeros, zeros);
    for (size_t i = 0; i < count; i++) {
        s = after_zeros;
        sha256_update(&s, 32, message);
        sha256_digest(&s, 32, message);
        work_sha256(message, 32, message);
    }
}

void work_aes256(const uint8_t key[32], size_t count, uint8_t block[16]) {
    struct aes256_ctx k;
    aes256_set_encrypt_key(&k, key);
    for (size_t i = 0; i < count; i++) aes256_encrypt(&k, 16, block, block);
}

void work_expand(uint8_t key[32], size_t count) {
    for (size_t i = 0; i < count; i++) {
        struct aes256_ctx k;
        aes256_set_encrypt_key(&k, key);
        memcpy(key, k.keys + 52, 32);
    }
}
