/* Expands keys and enciphers blocks by either cipher, as each line of standard input says, and prints what came of it.
   tests/c_interface/ciphers.py writes the one and reads the other.

       CIPHER KEY BLOCKS
       CIPHER WORDS BLOCKS

   CIPHER is tables or bytewise. KEY is 32 bytes, which are expanded; WORDS are 240, which are taken for an expanded key
   as they are. BLOCKS are one or more of 16 bytes. All is hexadecimal. Of a word of fortuna_aes256_key the least
   significant byte stands first. Back come KEY or nothing, the expanded key's 240 bytes and the enciphered blocks, as
   they are after the last call: what a call changes besides its block shows there, or ends the program. */
#define _POSIX_C_SOURCE 200809L
#include "fortuna.h"
#include "lent.h"

enum { KEY = 32, WORDS = 240, BLOCK = 16 };

/* The layout that kept keys count on. */
_Static_assert(sizeof(fortuna_aes256_key) == WORDS, "the size of an expanded key");
_Static_assert(sizeof(fortuna_aes256_bytewise_key) == WORDS, "the size of an expanded key, byte by byte");

/* Not static, so that the compiler can't count on a call to leave them as they are, and reads them again. */
fortuna_aes256_key tables_key;
fortuna_aes256_bytewise_key bytewise_key;

/* ---- either cipher, its expanded key as bytes */

typedef struct {
    const char *name;
    void (*expand)(const uint8_t key[KEY]);
    void (*block)(uint8_t block[BLOCK]);
    void (*set)(const uint8_t words[WORDS]);
    void (*get)(uint8_t words[WORDS]);
} cipher;

static void tables_expand(const uint8_t key[KEY]) { tables_key = fortuna_aes256_expand(key); }

static void tables_block(uint8_t block[BLOCK]) { fortuna_aes256_block(tables_key, block); }

static void tables_set(const uint8_t words[WORDS])
{
    memset(&tables_key, 0, sizeof tables_key);
    for (size_t i = 0; i < WORDS; i++)
        tables_key.words[i / 4] |= (uint32_t)words[i] << 8 * (i % 4);
}

static void tables_get(uint8_t words[WORDS])
{
    for (size_t i = 0; i < WORDS; i++)
        words[i] = (uint8_t)(tables_key.words[i / 4] >> 8 * (i % 4));
}

static void bytewise_expand(const uint8_t key[KEY]) { bytewise_key = fortuna_aes256_bytewise_expand(key); }

static void bytewise_block(uint8_t block[BLOCK]) { fortuna_aes256_bytewise_block(bytewise_key, block); }

static void bytewise_set(const uint8_t words[WORDS]) { memcpy(bytewise_key.words, words, WORDS); }

static void bytewise_get(uint8_t words[WORDS]) { memcpy(words, bytewise_key.words, WORDS); }

static const cipher ciphers[] = {
    {"tables", tables_expand, tables_block, tables_set, tables_get},
    {"bytewise", bytewise_expand, bytewise_block, bytewise_set, bytewise_get},
};

/* ---- lines */

/* Enciphers a block at a place of its own, which is at each distance from an aligned one in turn. */
static void encipher(const cipher *c, size_t turn, uint8_t block[BLOCK])
{
    _Alignas(BLOCK) uint8_t area[4 * BLOCK];
    uint8_t *lent = area + BLOCK + turn % BLOCK;
    memset(area, GUARD_BYTE, sizeof area);
    memcpy(lent, block, BLOCK);
    c->block(lent);
    memcpy(block, lent, BLOCK);
    memset(lent, GUARD_BYTE, BLOCK);
    for (size_t i = 0; i < sizeof area; i++)
        if (area[i] != GUARD_BYTE)
            stop("a call wrote outside its block");
}

static void expand(const cipher *c, const char *digits)
{
    uint8_t *key = lend(KEY);
    decode(digits, 2 * KEY, key);
    c->expand(key);
    print_bytes(key, KEY);
    give_back(key, KEY);
}

static void set(const cipher *c, const char *digits)
{
    uint8_t words[WORDS];
    decode(digits, 2 * WORDS, words);
    c->set(words);
}

static void answer(const cipher *c, char *under, char *blocks)
{
    uint8_t words[WORDS];
    size_t length = strlen(blocks) / 2;
    if (strlen(under) == 2 * KEY)
        expand(c, under);
    else if (strlen(under) == 2 * WORDS)
        set(c, under);
    else
        stop("a line with neither a key nor words");
    decode(blocks, 2 * length, (uint8_t *)blocks);
    for (size_t i = 0; i + BLOCK <= length; i += BLOCK)
        encipher(c, i / BLOCK, (uint8_t *)blocks + i);
    c->get(words);
    putchar(' ');
    print_bytes(words, WORDS);
    putchar(' ');
    print_bytes((const uint8_t *)blocks, length);
    putchar('\n');
}

static const cipher *cipher_named(const char *name)
{
    for (size_t i = 0; i < sizeof ciphers / sizeof *ciphers; i++)
        if (strcmp(ciphers[i].name, name) == 0)
            return &ciphers[i];
    stop("a line with no cipher");
}

int main(void)
{
    char *line = NULL;
    size_t room = 0;
    while (getline(&line, &room, stdin) > 0) {
        const char *name = strtok(line, " \n");
        char *under = strtok(NULL, " \n"), *blocks = strtok(NULL, " \n");
        if (!blocks)
            stop("a line that is too short");
        answer(cipher_named(name), under, blocks);
    }
    free(line);
    return 0;
}
