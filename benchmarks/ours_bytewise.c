/* The cipher that goes byte by byte. */
#include "fortuna.h"
#include "work.h"
#include <string.h>

void work_aes256(const uint8_t key[32], size_t count, uint8_t block[16]) {
    fortuna_aes256_bytewise_key k = fortuna_aes256_bytewise_expand(key);
    for (size_t i = 0; i < count; i++) fortuna_aes256_bytewise_block(k, block);
}

void work_expand(uint8_t key[32], size_t count) {
    for (size_t i = 0; i < count; i++) {
        fortuna_aes256_bytewise_key k = fortuna_aes256_bytewise_expand(key);
        memcpy(key, k.words + 208, 32);
    }
}
