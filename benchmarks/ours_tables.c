/* The cipher by tables, which the generator uses. */
#include "fortuna.h"
#include "work.h"
#include <string.h>

void work_aes256(const uint8_t key[32], size_t count, uint8_t block[16]) {
    fortuna_aes256_key k = fortuna_aes256_expand(key);
    for (size_t i = 0; i < count; i++) fortuna_aes256_block(k, block);
}

/* On x86-64 a word's first byte in memory is its least significant, so the words lie there as FIPS 197's bytes. */
void work_expand(uint8_t key[32], size_t count) {
    for (size_t i = 0; i < count; i++) {
        fortuna_aes256_key k = fortuna_aes256_expand(key);
        memcpy(key, k.words + 52, 32);
    }
}
