/* The 64 zero bytes with which D begins (02, v), as C sees them: in D itself, in the generator's reseed, in a pool's
   digest and in an empty pool's chain; in which states kept from before are refused; and in the limits that they lower.
   The plain SHA-256, by which D is worked out here, is held to FIPS 180-4's answers. */
#include "fortuna.h"
#include "same_state.h"

#include <stdio.h>
#include <stdlib.h>
#include <string.h>

enum { POOLS = 32, BLOCK = 64, DIGEST = 32, SEED = 64, HEADER = 3, MOST_DATA = 32, LONGEST = 260, LIST = 3 };

static const uint64_t max_pool = (UINT64_C(1) << 61) - 65;

static const fortuna_pool empty = {
    .chain = {0xda5698be, 0x17b9b469, 0x62335799, 0x779fbeca, 0x8ce5d491, 0xc0d26243, 0xbafef9ea, 0x1837a9d8}};

/* SHA-256's initial value, which an empty pool had before. */
static const uint32_t old_chain[8] = {
    0x6a09e667, 0xbb67ae85, 0x3c6ef372, 0xa54ff53a, 0x510e527f, 0x9b05688c, 0x1f83d9ab, 0x5be0cd19};

static void check(bool holds, const char *what, unsigned long long at)
{
    if (holds)
        return;
    printf("c_interface: zero_block: %s, at %llu\n", what, at);
    exit(1);
}

/* ---- D */

/* As the header says to check it by hand. */
static void d_by_hand(const uint8_t *message, size_t length, uint8_t digest[DIGEST])
{
    uint8_t string[BLOCK + LONGEST] = {0}, inner[DIGEST];
    memcpy(string + BLOCK, message, length);
    fortuna_sha256(string, BLOCK + length, inner);
    fortuna_sha256(inner, sizeof inner, digest);
}

/* FIPS 180-4's, and for D those of Python's hashlib. */
static const struct {
    uint32_t (*hash)(const uint8_t *data, size_t length, uint8_t digest[DIGEST]);
    const char *message, *digest;
} known[] = {
    {fortuna_sha256, "", "e3b0c44298fc1c149afbf4c8996fb92427ae41e4649b934ca495991b7852b855"},
    {fortuna_sha256, "abc", "ba7816bf8f01cfea414140de5dae2223b00361a396177a9cb410ff61f20015ad"},
    {fortuna_sha_d256, "", "e2f61c3f71d1defd3fa999dfa36953755c690689799962b48bebd836974e8cf9"},
    {fortuna_sha_d256, "abc", "4f16deb3ad853b88d8585b018319ad61455c1aba98a77a72b8fd324cbf0e775a"},
};

static void known_digests(void)
{
    for (size_t i = 0; i < sizeof known / sizeof *known; i++) {
        uint8_t digest[DIGEST];
        char text[2 * DIGEST + 1];
        const char *m = known[i].message;
        check(known[i].hash((const uint8_t *)m, strlen(m), digest) == FORTUNA_DONE, "a digest refused", i);
        for (size_t j = 0; j < DIGEST; j++)
            sprintf(text + 2 * j, "%02x", digest[j]);
        check(strcmp(text, known[i].digest) == 0, "a known digest", i);
    }
}

static void every_length(const uint8_t message[LONGEST])
{
    for (size_t length = 0; length <= LONGEST; length++) {
        uint8_t expected[DIGEST], digest[DIGEST];
        d_by_hand(message, length, expected);
        check(fortuna_sha_d256(message, length, digest) == FORTUNA_DONE, "D refused", length);
        check(memcmp(digest, expected, DIGEST) == 0, "D", length);
    }
}

/* The key becomes D of key and seed. */
static void every_seed(const uint8_t message[LONGEST])
{
    for (size_t length = DIGEST; length <= LONGEST; length++) {
        uint8_t expected[DIGEST];
        fortuna_generator g = {.counter = {1}};
        memcpy(g.key, message, DIGEST);
        d_by_hand(message, length, expected);
        uint32_t number = fortuna_generator_reseed_at(&g, message + DIGEST, length - DIGEST);
        check(number == FORTUNA_DONE, "a seed refused", length);
        check(memcmp(g.key, expected, DIGEST) == 0, "a key of the generator's reseed", length);
    }
}

/* An event of source 263 for pool 0. What the pool gains is also put at bytes. */
static size_t add_event(fortuna_state *state, const uint8_t *data, size_t length, uint8_t *bytes)
{
    const uint8_t header[HEADER] = {7, 1, (uint8_t)length};
    check(fortuna_event(state, 263, 0, data, length) == FORTUNA_DONE, "an event refused", length);
    memcpy(bytes, header, HEADER);
    memcpy(bytes + HEADER, data, length);
    return HEADER + length;
}

/* Events that bring an empty pool 0 to so many bytes. Those that a full event leaves must be an event too. */
static void fill(fortuna_state *state, const uint8_t *data, size_t length, uint8_t *bytes)
{
    size_t filled = 0;
    while (length - filled > HEADER + MOST_DATA) {
        size_t most = length - filled - 2 * HEADER - 1;
        filled += add_event(state, data, most < MOST_DATA ? most : MOST_DATA, bytes + filled);
    }
    add_event(state, data, length - filled - HEADER, bytes + filled);
}

/* The first pool reseed is the generator's by D of pool 0, whatever length that has. */
static void every_pool(const uint8_t data[LONGEST])
{
    for (size_t length = 64; length <= LONGEST; length++) {
        uint8_t bytes[LONGEST], digest[DIGEST];
        fortuna_state state = fortuna_new();
        fortuna_generator expected = fortuna_generator_new();
        fill(&state, data, length, bytes);
        check(state.pools[0].length == length, "a pool's length", length);
        d_by_hand(bytes, length, digest);
        fortuna_generator_reseed_at(&expected, digest, DIGEST);
        fortuna_generator_request_at(&expected, bytes, 0);
        fortuna_answer a = fortuna_request(&state, 0, bytes, 0);
        check(a.number == FORTUNA_DONE && a.emptied == 1, "a pool reseed", length);
        check(memcmp(&state.generator, &expected, sizeof expected) == 0, "a key of a pool's reseed", length);
        check(memcmp(&state.pools[0], &empty, sizeof empty) == 0, "an emptied pool", length);
    }
}

static void fresh_pools(void)
{
    fortuna_state state = fortuna_new();
    for (size_t i = 0; i < POOLS; i++)
        check(memcmp(&state.pools[i], &empty, sizeof empty) == 0, "a fresh pool", i);
}

/* ---- every call on a state */

typedef struct {
    fortuna_state state;
    uint32_t pool; /* of the event */
    uint8_t bytes[SEED];
    uint16_t list[LIST];
} lent;

static uint32_t event(lent *l) { return fortuna_event(&l->state, 1, l->pool, l->bytes, MOST_DATA); }
static uint32_t request(lent *l) { return fortuna_request(&l->state, 0, l->bytes, SEED).number; }
static uint32_t update(lent *l) { return fortuna_update(&l->state, 0, l->bytes, SEED).number; }
static uint32_t write_seed(lent *l) { return fortuna_write(&l->state, 0, l->bytes, SEED).number; }
static uint32_t draw(lent *l) { return fortuna_random_below(&l->state, 0, 100, 64).number; }
static uint32_t shuffle(lent *l) { return fortuna_shuffle(&l->state, 0, l->list, LIST).number; }
static uint32_t shuffle_one(lent *l) { return fortuna_shuffle(&l->state, 0, l->list, 1).number; }

static uint32_t (*const calls[])(lent *) = {event, request, update, write_seed, draw, shuffle, shuffle_one};
enum { CALLS = sizeof calls / sizeof *calls };

static lent seeded(void)
{
    lent l = {.state = fortuna_new(), .pool = 5, .bytes = {1}, .list = {3, 1, 2}};
    check(update(&l) == FORTUNA_DONE, "a seed", 0);
    return l;
}

static bool same(const lent *a, const lent *b)
{
    return same_state(&a->state, &b->state) && memcmp(a->bytes, b->bytes, SEED) == 0
        && memcmp(a->list, b->list, sizeof a->list) == 0;
}

static void every_call(const lent *given, uint32_t number, const char *what)
{
    for (size_t i = 0; i < CALLS; i++) {
        lent l = *given;
        check(calls[i](&l) == number, what, i);
        check(number == FORTUNA_DONE || same(&l, given), "a refused call changes nothing", i);
    }
}

/* A pool kept from before is refused as long as it has less than 64 bytes. */
static void kept_states(void)
{
    for (size_t i = 0; i < POOLS; i++) {
        lent l = seeded();
        fortuna_pool *p = &l.state.pools[i];
        memcpy(p->chain, old_chain, sizeof p->chain);
        every_call(&l, FORTUNA_MALFORMED, "a pool kept from before, empty");
        p->length = 63;
        every_call(&l, FORTUNA_MALFORMED, "a pool kept from before, of 63 bytes");
        p->length = 64;
        every_call(&l, FORTUNA_DONE, "a pool of 64 bytes, whatever its chain");
    }
}

static void longest_pools(void)
{
    for (uint32_t i = 0; i < POOLS; i++) {
        lent l = seeded();
        uint64_t *length = &l.state.pools[i].length;
        l.pool = (i + 1) % POOLS;
        *length = max_pool - 1;
        every_call(&l, FORTUNA_DONE, "a pool of 2^61 - 66 bytes");
        *length = max_pool;
        every_call(&l, FORTUNA_DONE, "a pool of 2^61 - 65 bytes");
        *length = max_pool + 1;
        every_call(&l, FORTUNA_MALFORMED, "a pool of 2^61 - 64 bytes");
        *length = max_pool + 64;
        every_call(&l, FORTUNA_MALFORMED, "a pool of 2^61 - 1 bytes");
    }
}

/* An event for a pool in which so many bytes are left up to its limit. */
static void last_event(size_t length, uint64_t left, uint32_t number)
{
    lent l = seeded();
    uint64_t *filled = &l.state.pools[l.pool].length;
    *filled = max_pool - left;
    const lent given = l;
    check(fortuna_event(&l.state, 1, l.pool, l.bytes, length) == number, "an event with this much room", left);
    if (number == FORTUNA_DONE)
        check(*filled == max_pool - left + HEADER + length, "the length after an event", left);
    else
        check(same(&l, &given), "a refused event changes nothing", left);
}

static void full_pools(void)
{
    for (size_t length = 1; length <= MOST_DATA; length++) {
        last_event(length, HEADER + length + 1, FORTUNA_DONE);
        last_event(length, HEADER + length, FORTUNA_DONE);
        last_event(length, HEADER + length - 1, FORTUNA_POOL_FULL);
        last_event(length, 0, FORTUNA_POOL_FULL);
    }
}

int main(void)
{
    uint8_t message[LONGEST];
    for (size_t i = 0; i < LONGEST; i++)
        message[i] = (uint8_t)(31 * i + 7);
    known_digests();
    every_length(message);
    every_seed(message);
    every_pool(message);
    fresh_pools();
    kept_states();
    longest_pools();
    full_pools();
    printf("c_interface: D begins with 64 zero bytes, in pools and seeds too; pools kept from before are refused below 64 bytes\n");
    return 0;
}
