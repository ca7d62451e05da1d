/* Fortuna with 32 pools, timer and seeds, and with its pools chosen by key, in plain C over libtomcrypt's SHA-256 and
   AES-256: the same calls, refusals and check of the whole state as the proved library makes, written the usual way, on
   a state that the caller keeps. */
#ifndef PLAIN_FORTUNA_H
#define PLAIN_FORTUNA_H

#include <stdbool.h>
#include <stddef.h>
#include <stdint.h>

/* An event's header in its pool is the source in two bytes, least significant first, and the length in one. */
enum { PLAIN_POOLS = 32, PLAIN_HEADER = 3, PLAIN_DATA = 32, PLAIN_SEED = 64, PLAIN_QUOTAS = 64 };

/* The hash value over 64 zero bytes and the whole blocks so far, the bytes after them with zeros behind, and the count
   of all bytes without the 64 zeros. */
typedef struct {
    uint32_t chain[8];
    uint8_t tail[64];
    uint64_t length;
} plain_pool;

/* The counter has its least significant byte first. last_reseed is the clock at the last pool reseed, reseed_count
   their number modulo 2^32, reseeded whether there was one, key_requests the requests since then or since the start, up
   to 65,535. */
typedef struct {
    uint8_t key[32];
    uint8_t counter[16];
    plain_pool pools[PLAIN_POOLS];
    uint32_t last_reseed;
    uint32_t reseed_count;
    bool reseeded;
    uint16_t key_requests;
} plain_state;

/* With the pools chosen by key. Of the station's fields last_reseed, reseed_count and reseeded stay 0. The step number
   is that of the next event. */
typedef struct {
    plain_state station;
    uint8_t scheduler_key[32];
    uint64_t step;
} plain_keyed;

/* What a source may bring between two pool reseeds, and what it has brought. */
typedef struct {
    uint32_t source;
    uint32_t allowance;
    uint32_t spent;
} plain_quota;

void plain_new(plain_state *s);

/* Each returns 0 or a refusal's number (11 to 15, 36, 21 to 24), and stores the count of pools emptied. After a refusal
   state and buffer are as before, and the count is 0. */
uint32_t plain_event(plain_state *s, uint32_t source, uint32_t pool, const uint8_t *data, size_t length);
uint32_t plain_request(plain_state *s, uint32_t clock, uint8_t *out, size_t length, uint32_t *emptied);
uint32_t plain_update(plain_state *s, uint32_t clock, uint8_t *seed, size_t length, uint32_t *emptied);
uint32_t plain_write(plain_state *s, uint32_t clock, uint8_t *seed, size_t length, uint32_t *emptied);

/* The same with the pools chosen by key, and 45 too. Only an event empties a pool, and only it stores the count. */
void plain_keyed_new(plain_keyed *k, const uint8_t scheduler_key[32]);
uint32_t plain_keyed_event(plain_keyed *k, uint32_t source, const uint8_t *data, size_t length, uint32_t *emptied);
uint32_t plain_keyed_request(plain_keyed *k, uint8_t *out, size_t length);
uint32_t plain_keyed_update(plain_keyed *k, uint8_t *seed, size_t length);
uint32_t plain_keyed_write(plain_keyed *k, uint8_t *seed, size_t length);

/* An event and a request with a list of quotas; 37 to 39 too. */
uint32_t plain_metered_event(plain_state *s, plain_quota *quotas, size_t records, uint32_t source, uint32_t pool,
                             const uint8_t *data, size_t length);
uint32_t plain_metered_request(plain_state *s, plain_quota *quotas, size_t records, uint32_t clock, uint8_t *out,
                               size_t length, uint32_t *emptied);

#endif
