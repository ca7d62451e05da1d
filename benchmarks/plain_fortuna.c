#include "plain_fortuna.h"
#include <string.h>
#include <tomcrypt.h>

static const size_t max_request = 1048576;
static const uint8_t zeros[64];

/* D begins with 64 zero bytes, which a pool's length does not count. SHA-256 then has this hash value. */
static const uint64_t max_pool_length = (UINT64_C(1) << 61) - 65;
static const uint32_t zero_block_chain[8] = {
    0xda5698be, 0x17b9b469, 0x62335799, 0x779fbeca, 0x8ce5d491, 0xc0d26243, 0xbafef9ea, 0x1837a9d8,
};

/* ---- pools */

static void empty(plain_pool *p)
{
    memcpy(p->chain, zero_block_chain, sizeof p->chain);
    memset(p->tail, 0, sizeof p->tail);
    p->length = 0;
}

/* SHA-256 that has had so many blocks, and has this hash value. libtomcrypt's length is in bits. */
static void resume(hash_state *h, const uint32_t chain[8], uint64_t blocks)
{
    memcpy(h->sha256.state, chain, sizeof h->sha256.state);
    h->sha256.length = 512 * blocks;
    h->sha256.curlen = 0;
}

/* libtomcrypt has no call for one block of SHA-256, so a running hash with no bytes waiting is given one. */
static void compress(uint32_t chain[8], const uint8_t block[64])
{
    hash_state h;
    resume(&h, chain, 0);
    sha256_process(&h, block, 64);
    memcpy(chain, h.sha256.state, sizeof h.sha256.state);
}

/* The pool gains at most 64 bytes, so at most one block fills. */
static void append(plain_pool *p, const uint8_t *bytes, size_t length)
{
    size_t used = p->length % 64;
    size_t room = 64 - used;
    p->length += length;
    if (length < room) {
        memcpy(p->tail + used, bytes, length);
        return;
    }
    memcpy(p->tail + used, bytes, room);
    compress(p->chain, p->tail);
    memset(p->tail, 0, sizeof p->tail);
    memcpy(p->tail, bytes + room, length - room);
}

/* SHA-256 of the 32 bytes at digest, in their place. */
static void hash_again(uint8_t digest[32])
{
    hash_state h;
    sha256_init(&h);
    sha256_process(&h, digest, 32);
    sha256_done(&h, digest);
}

/* D of all that the pool gained. */
static void pool_digest(const plain_pool *p, uint8_t digest[32])
{
    hash_state h;
    resume(&h, p->chain, 1 + p->length / 64);
    memcpy(h.sha256.buf, p->tail, sizeof h.sha256.buf);
    h.sha256.curlen = p->length % 64;
    sha256_done(&h, digest);
    hash_again(digest);
}

static bool malformed_pool(const plain_pool *p)
{
    size_t used = p->length % 64;
    if (p->length > max_pool_length) return true;
    if (memcmp(p->tail + used, zeros, 64 - used) != 0) return true;
    return p->length < 64 && memcmp(p->chain, zero_block_chain, sizeof p->chain) != 0;
}

/* ---- the generator */

static void step(uint8_t counter[16])
{
    for (int i = 0; i < 16; i++)
        if (++counter[i] != 0) return;
}

static uint64_t load(const uint8_t bytes[8])
{
    uint64_t n = 0;
    for (int i = 7; i >= 0; i--) n = n << 8 | bytes[i];
    return n;
}

static bool unseeded(const plain_state *s)
{
    return memcmp(s->counter, zeros, sizeof s->counter) == 0;
}

/* The counter would pass 2^128 - 1. */
static bool spent(const plain_state *s, uint64_t growth)
{
    return load(s->counter + 8) == UINT64_MAX && load(s->counter) > UINT64_MAX - growth;
}

/* The key becomes D of key and seed. */
static void reseed(plain_state *s, const uint8_t *seed, size_t length)
{
    hash_state h;
    resume(&h, zero_block_chain, 1);
    sha256_process(&h, s->key, sizeof s->key);
    sha256_process(&h, seed, length);
    sha256_done(&h, s->key);
    hash_again(s->key);
    step(s->counter);
}

static void block(plain_state *s, symmetric_key *k, uint8_t out[16])
{
    aes_enc_ecb_encrypt(s->counter, out, k);
    step(s->counter);
}

static uint64_t blocks_for(size_t length)
{
    return (length + 15) / 16 + 2;
}

static void generate(plain_state *s, uint8_t *out, size_t length)
{
    symmetric_key k;
    aes_enc_setup(s->key, sizeof s->key, 0, &k);
    for (; length >= 16; length -= 16, out += 16) block(s, &k, out);
    if (length > 0) {
        uint8_t last[16];
        block(s, &k, last);
        memcpy(out, last, length);
    }
    block(s, &k, s->key);
    block(s, &k, s->key + 16);
}

/* ---- the state */

void plain_new(plain_state *s)
{
    memset(s, 0, sizeof *s);
    for (int i = 0; i < PLAIN_POOLS; i++) empty(&s->pools[i]);
}

static bool malformed(const plain_state *s)
{
    for (int i = 0; i < PLAIN_POOLS; i++)
        if (malformed_pool(&s->pools[i])) return true;
    if (unseeded(s) && (s->reseeded || s->key_requests > 0 || memcmp(s->key, zeros, sizeof s->key) != 0)) return true;
    return !s->reseeded && (s->last_reseed != 0 || s->reseed_count != 0);
}

static bool due(const plain_state *s, uint32_t clock)
{
    return s->pools[0].length >= 64 && (!s->reseeded || clock - s->last_reseed > 100);
}

/* Pool i is used if 2^i divides the number, so the used ones are the first. */
static uint32_t pool_reseed(plain_state *s, uint32_t clock)
{
    uint8_t digests[PLAIN_POOLS * 32];
    uint32_t used = 0;
    s->reseed_count++;
    while (used < PLAIN_POOLS && (s->reseed_count & ((UINT32_C(1) << used) - 1)) == 0) {
        pool_digest(&s->pools[used], digests + 32 * used);
        empty(&s->pools[used]);
        used++;
    }
    reseed(s, digests, 32 * used);
    s->last_reseed = clock;
    s->reseeded = true;
    s->key_requests = 0;
    return used;
}

/* All bytes equal. Every byte is looked at, with no early exit, as the proved library does. */
static bool blank(const uint8_t seed[PLAIN_SEED])
{
    uint8_t difference = 0;
    for (int i = 1; i < PLAIN_SEED; i++) difference |= seed[i] ^ seed[0];
    return difference == 0;
}

/* 21, 23 or 24 of a request; growth is how many blocks it makes. */
static uint32_t state_refusal(const plain_state *s, uint32_t clock, uint64_t growth)
{
    if (malformed(s)) return 21;
    if (unseeded(s) && !due(s, clock)) return 23;
    if (spent(s, due(s, clock) + growth)) return 24;
    return 0;
}

static void serve(plain_state *s, uint8_t *out, size_t length)
{
    generate(s, out, length);
    if (s->key_requests < UINT16_MAX) s->key_requests++;
}

static uint32_t random_data(plain_state *s, uint32_t clock, uint8_t *out, size_t length)
{
    uint32_t emptied = due(s, clock) ? pool_reseed(s, clock) : 0;
    serve(s, out, length);
    return emptied;
}

/* ---- quotas */

/* Sources that rise repeat none, so that one pass will do. */
static bool rising(const plain_quota *quotas, size_t records)
{
    for (size_t i = 1; i < records; i++)
        if (quotas[i].source <= quotas[i - 1].source) return false;
    return true;
}

static bool repeated(const plain_quota *quotas, size_t records)
{
    for (size_t i = 1; i < records; i++)
        for (size_t j = 0; j < i; j++)
            if (quotas[i].source == quotas[j].source) return true;
    return false;
}

static bool malformed_quotas(const plain_quota *quotas, size_t records)
{
    if (records > PLAIN_QUOTAS) return true;
    for (size_t i = 0; i < records; i++)
        if (quotas[i].spent > quotas[i].allowance) return true;
    return !rising(quotas, records) && repeated(quotas, records);
}

/* The source's record; null where it has none. */
static plain_quota *quota_of(plain_quota *quotas, size_t records, uint32_t source)
{
    for (size_t i = 0; i < records; i++)
        if (quotas[i].source == source) return &quotas[i];
    return NULL;
}

/* ---- the calls */

/* 11 to 13. */
static uint32_t event_input(uint32_t source, uint32_t pool, size_t length)
{
    if (source > 65535) return 11;
    if (pool >= PLAIN_POOLS) return 12;
    return length == 0 || length > PLAIN_DATA ? 13 : 0;
}

static bool full(const plain_pool *p, size_t length)
{
    return p->length + PLAIN_HEADER + length > max_pool_length;
}

static void gain(plain_pool *p, uint32_t source, const uint8_t *data, size_t length)
{
    uint8_t bytes[PLAIN_HEADER + PLAIN_DATA] = {(uint8_t)source, (uint8_t)(source >> 8), (uint8_t)length};
    memcpy(bytes + PLAIN_HEADER, data, length);
    append(p, bytes, PLAIN_HEADER + length);
}

uint32_t plain_event(plain_state *s, uint32_t source, uint32_t pool, const uint8_t *data, size_t length)
{
    uint32_t number = event_input(source, pool, length);
    if (number != 0) return number;
    if (malformed(s)) return 21;
    if (full(&s->pools[pool], length)) return 22;
    gain(&s->pools[pool], source, data, length);
    return 0;
}

uint32_t plain_request(plain_state *s, uint32_t clock, uint8_t *out, size_t length, uint32_t *emptied)
{
    *emptied = 0;
    if (length > max_request) return 14;
    uint32_t number = state_refusal(s, clock, blocks_for(length));
    if (number == 0) *emptied = random_data(s, clock, out, length);
    return number;
}

uint32_t plain_update(plain_state *s, uint32_t clock, uint8_t *seed, size_t length, uint32_t *emptied)
{
    *emptied = 0;
    if (length != PLAIN_SEED) return 15;
    if (blank(seed)) return 36;
    if (malformed(s)) return 21;
    if (spent(s, due(s, clock) + 1 + blocks_for(length))) return 24;
    reseed(s, seed, length);
    *emptied = random_data(s, clock, seed, length);
    return 0;
}

uint32_t plain_write(plain_state *s, uint32_t clock, uint8_t *seed, size_t length, uint32_t *emptied)
{
    *emptied = 0;
    if (length != PLAIN_SEED) return 15;
    uint32_t number = state_refusal(s, clock, blocks_for(length));
    if (number == 0) *emptied = random_data(s, clock, seed, length);
    return number;
}

uint32_t plain_metered_event(plain_state *s, plain_quota *quotas, size_t records, uint32_t source, uint32_t pool,
                             const uint8_t *data, size_t length)
{
    uint32_t number = event_input(source, pool, length);
    if (number != 0) return number;
    if (malformed_quotas(quotas, records)) return 37;
    plain_quota *own = quota_of(quotas, records, source);
    if (own == NULL) return 38;
    if (own->allowance - own->spent < PLAIN_HEADER + length) return 39;
    number = plain_event(s, source, pool, data, length);
    if (number == 0) own->spent += (uint32_t)(PLAIN_HEADER + length);
    return number;
}

uint32_t plain_metered_request(plain_state *s, plain_quota *quotas, size_t records, uint32_t clock, uint8_t *out,
                               size_t length, uint32_t *emptied)
{
    *emptied = 0;
    if (length > max_request) return 14;
    if (malformed_quotas(quotas, records)) return 37;
    uint32_t number = plain_request(s, clock, out, length, emptied);
    for (size_t i = 0; *emptied > 0 && i < records; i++) quotas[i].spent = 0;
    return number;
}

/* ---- pools chosen by key */

void plain_keyed_new(plain_keyed *k, const uint8_t scheduler_key[32])
{
    plain_new(&k->station);
    memcpy(k->scheduler_key, scheduler_key, sizeof k->scheduler_key);
    k->step = 0;
}

/* The pool that the step picks: by AES-256 of the step number, least significant byte first. */
static uint32_t input_pool(const plain_keyed *k)
{
    symmetric_key schedule;
    uint8_t block[16] = {0};
    for (int i = 0; i < 8; i++) block[i] = (uint8_t)(k->step >> 8 * i);
    aes_enc_setup(k->scheduler_key, sizeof k->scheduler_key, 0, &schedule);
    aes_enc_ecb_encrypt(block, block, &schedule);
    return block[0] % PLAIN_POOLS;
}

static bool empties(uint64_t step)
{
    return step != 0 && step % 32 == 0;
}

/* The pool that such a step empties: the largest i up to 31 with which 32 * 2^i divides it. */
static uint32_t output_pool(uint64_t step)
{
    int i = __builtin_ctzll(step) - 5;
    return i < PLAIN_POOLS ? (uint32_t)i : PLAIN_POOLS - 1;
}

/* Where reseeded is clear, a last_reseed or a reseed_count that is not 0 is malformed in the station too. */
static bool keyed_malformed(const plain_keyed *k)
{
    return malformed(&k->station) || k->station.reseeded;
}

static void empty_into_key(plain_state *s, plain_pool *p)
{
    uint8_t digest[32];
    pool_digest(p, digest);
    reseed(s, digest, sizeof digest);
    empty(p);
    s->key_requests = 0;
}

uint32_t plain_keyed_event(plain_keyed *k, uint32_t source, const uint8_t *data, size_t length, uint32_t *emptied)
{
    plain_state *s = &k->station;
    *emptied = 0;
    uint32_t number = event_input(source, 0, length);
    if (number != 0) return number;
    if (keyed_malformed(k)) return 21;
    plain_pool *own = &s->pools[input_pool(k)];
    if (full(own, length)) return 22;
    if (k->step == UINT64_MAX) return 45;
    const bool reseeds = empties(k->step);
    if (reseeds && spent(s, 1)) return 24;
    gain(own, source, data, length);
    if (reseeds) empty_into_key(s, &s->pools[output_pool(k->step)]);
    *emptied = reseeds;
    k->step++;
    return 0;
}

/* 21, 23 or 24 of a request; growth is how many blocks it makes. */
static uint32_t keyed_refusal(const plain_keyed *k, uint64_t growth)
{
    if (keyed_malformed(k)) return 21;
    if (unseeded(&k->station)) return 23;
    return spent(&k->station, growth) ? 24 : 0;
}

uint32_t plain_keyed_request(plain_keyed *k, uint8_t *out, size_t length)
{
    if (length > max_request) return 14;
    uint32_t number = keyed_refusal(k, blocks_for(length));
    if (number == 0) serve(&k->station, out, length);
    return number;
}

uint32_t plain_keyed_update(plain_keyed *k, uint8_t *seed, size_t length)
{
    if (length != PLAIN_SEED) return 15;
    if (blank(seed)) return 36;
    if (keyed_malformed(k)) return 21;
    if (spent(&k->station, 1 + blocks_for(length))) return 24;
    reseed(&k->station, seed, length);
    serve(&k->station, seed, length);
    return 0;
}

uint32_t plain_keyed_write(plain_keyed *k, uint8_t *seed, size_t length)
{
    if (length != PLAIN_SEED) return 15;
    uint32_t number = keyed_refusal(k, blocks_for(length));
    if (number == 0) serve(&k->station, seed, length);
    return number;
}
