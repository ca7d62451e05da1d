/* Calls the static library from C and prints lines as the program `vectors` does, so that its stored answers serve here too. */
#include "fortuna.h"

#include <stdio.h>
#include <string.h>

static uint8_t large[1048577];

/* The key of FIPS 197, A.3, and of SP 800-38A's examples F.1.5 and F.5.5. */
static const uint8_t published_key[32] = {
    0x60, 0x3d, 0xeb, 0x10, 0x15, 0xca, 0x71, 0xbe, 0x2b, 0x73, 0xae, 0xf0, 0x85, 0x7d, 0x77, 0x81,
    0x1f, 0x35, 0x2c, 0x07, 0x3b, 0x61, 0x08, 0xd7, 0x2d, 0x98, 0x10, 0xa3, 0x09, 0x14, 0xdf, 0xf4,
};

static void hexadecimal(const uint8_t *bytes, size_t length)
{
    for (size_t i = 0; i < length; i++)
        printf("%02x", bytes[i]);
}

static void line(const char *title, const char *call, size_t length, uint32_t number, const fortuna_generator *next)
{
    printf("generator %s %s %zu: %u key ", title, call, length, number);
    hexadecimal(next->key, sizeof next->key);
    printf(" counter ");
    hexadecimal(next->counter, sizeof next->counter);
}

/* What the buffer holds after the call: all of it, or its digest. */
static void buffer(const uint8_t *out, size_t length)
{
    uint8_t digest[32];
    if (length > 64) {
        fortuna_sha256(out, length, digest);
        printf(" buffer sha256 ");
        hexadecimal(digest, sizeof digest);
    } else if (length > 0) {
        printf(" buffer ");
        hexadecimal(out, length);
    }
    printf("\n");
}

static void reseed(const char *title, fortuna_generator *state, const void *seed, size_t length)
{
    uint32_t number = fortuna_generator_reseed_at(state, seed, length);
    line(title, "reseed", length, number, state);
    printf("\n");
}

static void blocks(const char *title, fortuna_generator *state, uint8_t *out, size_t length)
{
    uint32_t number = fortuna_generator_blocks_at(state, out, length);
    line(title, "blocks", length, number, state);
    buffer(out, length);
}

static void request(const char *title, fortuna_generator *state, uint8_t *out, size_t length)
{
    uint32_t number = fortuna_generator_request_at(state, out, length);
    line(title, "request", length, number, state);
    buffer(out, length);
}

/* Each operation on one state, which may be one that the library never gave. */
static void each_call(const char *title, fortuna_generator given)
{
    uint8_t out[17];
    fortuna_generator state = given;
    reseed(title, &state, "abc", 3);
    memset(out, 0xee, sizeof out);
    state = given;
    blocks(title, &state, out, 0);
    state = given;
    blocks(title, &state, out, 1);
    memset(out, 0xee, sizeof out);
    state = given;
    request(title, &state, out, 0);
    state = given;
    request(title, &state, out, sizeof out);
}

static void from_seed(size_t length)
{
    static const size_t sizes[] = {0, 1, 15, 16, 17, 64};
    uint8_t seed[100], out[64];
    char title[40];
    fortuna_generator state = fortuna_generator_new();
    memset(seed, 0xa5, sizeof seed);
    snprintf(title, sizeof title, "seed %zu", length);
    reseed(title, &state, seed, length);
    for (int turn = 0; turn < 3; turn++)
        for (size_t i = 0; i < sizeof sizes / sizeof *sizes; i++) {
            memset(out, 0xee, sizeof out);
            (turn == 1 ? request : blocks)(title, &state, out, sizes[i]);
        }
}

/* C from 2^128 - 5 to 2^128 - 1, under the published key. */
static void near_the_end(void)
{
    char title[40];
    fortuna_generator state;
    for (int below = 5; below > 0; below--) {
        memcpy(state.key, published_key, sizeof published_key);
        memset(state.counter, 0xff, sizeof state.counter);
        state.counter[0] = (uint8_t)(256 - below);
        snprintf(title, sizeof title, "2^128 - %d", below);
        each_call(title, state);
    }
}

static void large_buffers(void)
{
    fortuna_generator state = fortuna_generator_new();
    memset(large, 0xee, sizeof large);
    reseed("seed 3", &state, "abc", 3);
    request("seed 3", &state, large, 65535);
    request("seed 3", &state, large, 1048576);
    blocks("seed 3", &state, large, 65535);
    blocks("seed 3", &state, large, 1048576);
    blocks("seed 3", &state, large, 1048577);
    request("seed 3", &state, large, 1048577);
}

/* ---- the published lines of the cipher, of which the library has two */

typedef struct {
    void (*words)(const uint8_t key[32], uint8_t words[240]);
    void (*block)(const uint8_t key[32], uint8_t block[16]);
} cipher;

static void tables_words(const uint8_t key[32], uint8_t words[240])
{
    fortuna_aes256_key expanded = fortuna_aes256_expand(key);
    for (int i = 0; i < 240; i++)
        words[i] = (uint8_t)(expanded.words[i / 4] >> 8 * (i % 4));
}

static void tables_block(const uint8_t key[32], uint8_t block[16])
{
    fortuna_aes256_block(fortuna_aes256_expand(key), block);
}

static void bytewise_words(const uint8_t key[32], uint8_t words[240])
{
    fortuna_aes256_bytewise_key expanded = fortuna_aes256_bytewise_expand(key);
    memcpy(words, expanded.words, 240);
}

static void bytewise_block(const uint8_t key[32], uint8_t block[16])
{
    fortuna_aes256_bytewise_block(fortuna_aes256_bytewise_expand(key), block);
}

static const cipher by_tables = {tables_words, tables_block}, byte_by_byte = {bytewise_words, bytewise_block};

static void cipher_line(const char *title, int n, const uint8_t *bytes, size_t length)
{
    printf("aes256 %s %d: ", title, n);
    hexadecimal(bytes, length);
    printf("\n");
}

/* FIPS 197, C.3: bytes that count up. */
static void counting_up(cipher c)
{
    uint8_t key[32], block[16];
    for (int i = 0; i < 32; i++)
        key[i] = (uint8_t)i;
    for (int i = 0; i < 16; i++)
        block[i] = (uint8_t)(0x11 * i);
    c.block(key, block);
    printf("aes256 C.3: ");
    hexadecimal(block, sizeof block);
    printf("\n");
}

/* FIPS 197, A.3. */
static void schedule(cipher c)
{
    uint8_t words[240];
    c.words(published_key, words);
    for (int i = 0; i < 60; i++)
        cipher_line("word", i, words + 4 * i, 4);
}

/* SP 800-38A, F.1.5 and F.5.5. The counter starts at f0f1..ff, and only its last two bytes change. */
static void modes(cipher c)
{
    static const uint8_t text[4][16] = {
        {0x6b, 0xc1, 0xbe, 0xe2, 0x2e, 0x40, 0x9f, 0x96, 0xe9, 0x3d, 0x7e, 0x11, 0x73, 0x93, 0x17, 0x2a},
        {0xae, 0x2d, 0x8a, 0x57, 0x1e, 0x03, 0xac, 0x9c, 0x9e, 0xb7, 0x6f, 0xac, 0x45, 0xaf, 0x8e, 0x51},
        {0x30, 0xc8, 0x1c, 0x46, 0xa3, 0x5c, 0xe4, 0x11, 0xe5, 0xfb, 0xc1, 0x19, 0x1a, 0x0a, 0x52, 0xef},
        {0xf6, 0x9f, 0x24, 0x45, 0xdf, 0x4f, 0x9b, 0x17, 0xad, 0x2b, 0x41, 0x7b, 0xe6, 0x6c, 0x37, 0x10},
    };
    for (int n = 0; n < 4; n++) {
        uint8_t block[16], counter[16];
        memcpy(block, text[n], sizeof block);
        c.block(published_key, block);
        cipher_line("ECB", n + 1, block, sizeof block);
        for (int i = 0; i < 16; i++)
            counter[i] = (uint8_t)(0xf0 + i);
        counter[15] = (uint8_t)(0xff + n);
        counter[14] = (uint8_t)(0xfe + (n > 0));
        c.block(published_key, counter);
        for (int i = 0; i < 16; i++)
            counter[i] ^= text[n][i];
        cipher_line("CTR", n + 1, counter, sizeof counter);
    }
}

static void published(cipher c)
{
    counting_up(c);
    schedule(c);
    modes(c);
}

int main(void)
{
    static const size_t seeds[] = {0, 1, 32, 64, 100};
    fortuna_generator state = fortuna_generator_new();
    for (size_t i = 0; i < sizeof seeds / sizeof *seeds; i++)
        from_seed(seeds[i]);
    each_call("counter 0", state);
    state.key[0] = 1;
    each_call("malformed 0", state);
    near_the_end();
    large_buffers();
    published(by_tables);
    published(byte_by_byte);
    return 0;
}
