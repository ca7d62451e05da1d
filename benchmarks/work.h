/* The work that is measured; a file for each library defines it. */
#ifndef WORK_H
#define WORK_H

#include <stddef.h>
#include <stdint.h>

/* SHA-256 of length bytes. */
void work_sha256(const uint8_t *data, size_t length, uint8_t digest[32]);

/* D, the book's SHA_d-256, of the 32 bytes at message, in their place, count times. */
void work_sha_d256(size_t count, uint8_t message[32]);

/* One AES-256 key expansion, then the block enciphered in place count times. */
void work_aes256(const uint8_t key[32], size_t count, uint8_t block[16]);

/* count AES-256 key expansions; the last two round keys of each are the next key. */
void work_expand(uint8_t key[32], size_t count);

#endif
