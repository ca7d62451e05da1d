/* Fortuna with its pools, timer and seeds, Fortuna with its pools chosen by key, the generator alone, SHA-256, D and
   AES-256, health tests that tell a stuck noise source, NIST's CTR_DRBG, a converter of call logs between frames 01 and
   05, and a reader of the events behind a pool: the static library fortuna_c, for x86-64. It calls memcpy and memset,
   and nothing else.

   STATIONS START FRESH AFTER THE UPDATE TO THE 2010 EDITION'S D: call fortuna_new, then fortuna_update with the stored
   seed. Take up no fortuna_state that was kept by a version whose header has fortuna_double_sha256, the name of D then.
   Stored seeds stay good, and so do values of fortuna_generator.

   Why: that version went by the Fortuna book's edition of 2003. This one goes by the edition of 2010, whose D hashes 64
   zero bytes before the message. So every pool's running hash begins with them, and in a kept state it begins without.
   As long as a pool of the kept state holds less than 64 bytes, every call refuses it (FORTUNA_MALFORMED); do not mend
   it to get past that. Once all 32 hold 64 bytes or more, nothing tells: the calls go on, and the keys are those of
   neither edition.

   The caller sees to it that a pointer points to as many bytes, samples, records, or numbers of a list, as its length
   says and is not null, not even at length 0, and that a buffer or a list overlaps nothing else that the same call is
   lent. Then every call returns, and none allocates, keeps a pointer, or reads or changes anything but what it is lent.

   One call at a time on a state, and on a list of quotas. A call reads the whole state, works, and stores the whole
   next state, and nothing in the library waits for another call. An event given from an interrupt while a request runs
   on the same state is answered FORTUNA_DONE and is lost. Two threads that draw from one state at the same time can get
   equal keys. So let one task own the state, and let interrupts and other threads hand their noise to it:
   examples/c/station.c does this with a ring buffer. Calls on different states may run at the same time.

   Stack. On x86-64 a call needs at most this many bytes of stack, the caller's copy of what it returns included
   (tests/compiled/footprint.py holds the library to it, and prints what was measured). The bounds are some 8 % above
   what was measured with rattle-kit-13f:

       fortuna_sha256                   1,792
       fortuna_sha_d256                 2,304
       fortuna_aes256_expand            1,024
       fortuna_aes256_block               512
       fortuna_aes256_bytewise_expand     512
       fortuna_aes256_bytewise_block      768
       fortuna_generator_new              256
       fortuna_generator_reseed         2,816
       fortuna_generator_blocks         1,280
       fortuna_generator_request        1,280
       fortuna_new                     12,288
       fortuna_event                    2,048
       fortuna_request                 11,776
       fortuna_update                  15,360
       fortuna_write                   11,776
       fortuna_random_below            37,632
       fortuna_shuffle                 45,312
       fortuna_metered_event            1,792
       fortuna_metered_request          7,936
       fortuna_metered_update          19,200
       fortuna_metered_write            7,936
       fortuna_metered_random_below    41,216
       fortuna_metered_shuffle         49,152
       fortuna_keyed_new               12,288
       fortuna_keyed_event             14,592
       fortuna_keyed_request           12,288
       fortuna_keyed_update            14,080
       fortuna_keyed_write             12,288
       fortuna_keyed_metered_event     18,176
       fortuna_keyed_metered_request   16,128
       fortuna_keyed_metered_update    17,664
       fortuna_keyed_metered_write     15,872
       fortuna_keyed_input                768
       fortuna_keyed_output               256
       fortuna_log                    260,864
       fortuna_convert                    512
       fortuna_entry_at                   256
       fortuna_health_new                 256
       fortuna_health_test                256
       fortuna_ctr_drbg_new               256
       fortuna_ctr_drbg_instantiate     1,280
       fortuna_ctr_drbg_reseed          1,280
       fortuna_ctr_drbg_generate        1,024

   The library wipes no memory. After a call copies of the state's key K are left on the stack below the caller, also
   of the K that the next call starts from. A call of CTR_DRBG leaves copies of its Key and its V there, also of those
   that the next call starts from. A call of the keyed scheduler leaves copies of the scheduler key beside those of K.
   Where others may read that memory, wipe it, or run the calls on a stack of their own.

   Traces. No branch in the ciphers goes by key or data, but both read tables at places that key and data pick, and a
   trace of the power or of the cache may tell those places. To expand a key both read the S-box, 256 bytes. The calls
   that draw from a state or from the generator, and those of CTR_DRBG, encipher by four tables of words, 4 KB, always.
   The cipher that goes byte by byte reads the S-box for blocks too and nothing else: a smaller leak, not none. It is
   there for firmware that enciphers under keys of its own where such traces matter (fortuna_aes256_bytewise_block).
   In CTR_DRBG no branch goes by Key, by V or by what an input holds: only by lengths and by the reseed counter. A step
   of V is one sum of 128 bits, however far the carry gets. The keyed scheduler's event enciphers under the
   scheduler key by the same tables, and works on the pool that comes of it: a trace may tell the pool too.

   Numbers returned: FORTUNA_DONE, or the number of a refusal. Where more than one applies it is the first in the order
   of the list below, but for CTR_DRBG, whose section has its order. After a refusal buffers, quotas and state are as
   before; pools emptied are 0. FORTUNA_NONE_DRAWN differs: the call's tries were made, so that the state has advanced.
   If that emptied pools, quotas are unspent; the numbers of a shuffle are as before. fortuna_convert differs too: the
   lines before the refused one stand in its buffer, and only what is behind them is as before. No call is refused for
   another reason. A sample that fails a health test is no refusal: the number is FORTUNA_DONE, and
   fortuna_health_passed tells. */
#ifndef FORTUNA_H
#define FORTUNA_H

#include <stdbool.h>
#include <stddef.h>
#include <stdint.h>

#ifdef __cplusplus
extern "C" {
#endif

enum {
    FORTUNA_DONE = 0,
    /* an event: source above 65,535 */
    FORTUNA_BAD_SOURCE = 11,
    /* an event: pool above 31 */
    FORTUNA_BAD_POOL = 12,
    /* an event: no data, or more than 32 bytes */
    FORTUNA_BAD_DATA = 13,
    /* a request, or a buffer for the generator's blocks, above 1,048,576 bytes; for CTR_DRBG above 65,536 bytes */
    FORTUNA_REQUEST_TOO_LONG = 14,
    /* a seed update or a seed write: a seed buffer that is not exactly 64 bytes */
    FORTUNA_BAD_SEED = 15,
    /* a line of a log that is no frame: fortuna_convert returns it; for fortuna_log it stands in the answers */
    FORTUNA_NO_FRAME = 16,
    /* a message for SHA-256 above 2^61 - 1 bytes, a message for D above 2^61 - 65 bytes, or a seed for the generator
       alone above 2^61 - 97 bytes */
    FORTUNA_TOO_LONG = 17,
    /* a draw: n outside 1 to 2^32. A shuffle: more than 256 numbers, or two that are equal */
    FORTUNA_SLOT_RANGE = 31,
    /* a draw: tries outside 1 to 64 */
    FORTUNA_TRY_RANGE = 32,
    /* a seed update: a blank seed, which is 64 equal bytes, whatever the byte, as a page of flash memory that was never
       written. fortuna_update says what to do then */
    FORTUNA_BLANK_SEED = 36,
    /* a call with quotas: more than 64 records, a source that has two, or a record that has spent above its
       allowance */
    FORTUNA_BAD_QUOTAS = 37,
    /* an event with quotas: no record of its source */
    FORTUNA_NOT_LISTED = 38,
    /* an event with quotas: spent and the 3 bytes of header and the data would pass the source's allowance */
    FORTUNA_OVER_ALLOWANCE = 39,
    /* a malformed state, which no run of calls leaves: a pool length above 2^61 - 65; a byte after a pool's tail that
       is not 0; a pool below 64 bytes whose chain is not the empty pool's, which stands at fortuna_pool; counter 0 with
       a key that is not all zero; counter 0 with reseeded set; reseeded clear with a last_reseed or a reseed_count that
       is not 0; counter 0 with a key_requests above 0. For the keyed scheduler also reseeded set, or a last_reseed or a
       reseed_count that is not 0. For the generator alone: counter 0 with a key that is not all zero */
    FORTUNA_MALFORMED = 21,
    /* an event: its pool's length with the 3 bytes of header and the data would pass 2^61 - 65 */
    FORTUNA_POOL_FULL = 22,
    /* a request, a seed write, a draw or a shuffle of 2 numbers or more, with counter 0 and no pool reseed due. For the
       generator alone blocks or a request, and for the keyed scheduler a request or a seed write, with counter 0 */
    FORTUNA_UNSEEDED = 23,
    /* an event of the keyed scheduler: its step number is 2^64 - 1 */
    FORTUNA_STEPS_SPENT = 45,
    /* a counter that would grow above 2^128 - 1, for a draw or a shuffle if it made all its tries; of the keyed
       scheduler's events only one whose step empties a pool makes it grow */
    FORTUNA_COUNTER_SPENT = 24,
    /* a draw, or one of a shuffle's: no try fell below n */
    FORTUNA_NONE_DRAWN = 33,
    /* a health test: a cutoff below 2 or above 512 */
    FORTUNA_CUTOFF_RANGE = 34,
    /* a malformed test state, also where no samples come: a run or a count at or above its cutoff; a count above the
       samples seen; 512 or more seen; some seen but count or run 0; none seen but first not 0; run 0 but last not 0 */
    FORTUNA_MALFORMED_HEALTH = 35,
    /* CTR_DRBG, a seeding: entropy input that is not exactly 48 bytes */
    FORTUNA_ENTROPY_LENGTH = 40,
    /* CTR_DRBG: a personalization string or additional input above 48 bytes */
    FORTUNA_INPUT_TOO_LONG = 41,
    /* CTR_DRBG: a reseed or a request on a state that was never seeded, which is reseed_counter 0; a request where 2^48
       or more were made since the last seeding, which is reseed_counter above 2^48 */
    FORTUNA_SEEDING_NEEDED = 42,
    /* a conversion to frames 01: an event of a source above 255, which frame 01 can't carry */
    FORTUNA_LARGE_SOURCE = 43,
    /* a pool's byte string: no whole event starts at the place, or it is past the end */
    FORTUNA_NO_EVENT = 44,
    /* a conversion: no room left for the converted line and its end */
    FORTUNA_NO_ROOM = 46
};

/* SHA-256 (FIPS 180-4) of length bytes at data, into 32 bytes at digest.
   Returns FORTUNA_DONE or FORTUNA_TOO_LONG. */
uint32_t fortuna_sha256(const uint8_t *data, size_t length, uint8_t digest[32]);

/* D, the SHA_d-256 of the Fortuna book's 2010 edition, of length bytes at data, into 32 bytes at digest: SHA-256 of the
   32-byte SHA-256 of one string, 64 zero bytes and then the data. To check it by hand, here for the data "abc":

       { head -c 64 /dev/zero; printf abc; } | openssl dgst -sha256 -binary | sha256sum

   which is 4f16deb3ad853b88d8585b018319ad61455c1aba98a77a72b8fd324cbf0e775a.
   Returns FORTUNA_DONE or FORTUNA_TOO_LONG. */
uint32_t fortuna_sha_d256(const uint8_t *data, size_t length, uint8_t digest[32]);

/* ---- AES-256 encryption (FIPS 197), by two ciphers that agree on every key and block

   fortuna_aes256_.. goes by tables and is the faster: docs/BENCHMARKS.md has both. fortuna_aes256_bytewise_.. goes byte
   by byte, for keys of your own where traces matter: 'Traces' at the top of this file says why. */

/* An expanded key for the cipher by tables: the 60 words of FIPS 197's key expansion. words[i] is w[i], whose first
   byte is the least significant.

   THIS TYPE CHANGED WITH THE TABLES. Before it was uint8_t words[240]. On a little-endian machine, which x86-64 is, the
   240 bytes in memory are the same, so a kept value stays good. But code that reads bytes by their index compiles as
   before and reads elsewhere: what was words[4 * i + j] is (uint8_t)(words[i] >> 8 * j), and where memcpy took
   words + 4 * i it takes words + i. */
typedef struct {
    uint32_t words[60];
} fortuna_aes256_key;

/* The key expansion (FIPS 197, 5.2) of the 32 bytes at key. */
fortuna_aes256_key fortuna_aes256_expand(const uint8_t key[32]);

/* Enciphers the 16 bytes at block in place (FIPS 197, 5.1), by tables that stand in the library's constants. Any 60
   words may stand in the key. */
void fortuna_aes256_block(fortuna_aes256_key key, uint8_t block[16]);

/* An expanded key for the cipher that goes byte by byte: the same 60 words, 4 bytes each, in FIPS 197's order. */
typedef struct {
    uint8_t words[240];
} fortuna_aes256_bytewise_key;

/* The key expansion (FIPS 197, 5.2) of the 32 bytes at key. */
fortuna_aes256_bytewise_key fortuna_aes256_bytewise_expand(const uint8_t key[32]);

/* Enciphers the 16 bytes at block in place (FIPS 197, 5.1), byte by byte. Any 240 bytes may stand in the key. */
void fortuna_aes256_bytewise_block(fortuna_aes256_bytewise_key key, uint8_t block[16]);

/* The generator alone (Fortuna, 9.4). Any bytes may stand in it. The counter is held least significant byte first,
   and 0 means unseeded. */
typedef struct {
    uint8_t key[32];
    uint8_t counter[16];
} fortuna_generator;

/* The number, the lowest where more than one applies, and the state that follows. After FORTUNA_DONE only the latter
   is to be used: the state that was passed would give the same bytes again. */
typedef struct {
    uint32_t number;
    fortuna_generator next;
} fortuna_generator_outcome;

/* The state before any seed: key and counter 0. */
fortuna_generator fortuna_generator_new(void);

/* The key becomes D of the key followed by the length bytes at seed, and the counter grows by 1.
   FORTUNA_DONE, FORTUNA_TOO_LONG, FORTUNA_MALFORMED or FORTUNA_COUNTER_SPENT. */
fortuna_generator_outcome fortuna_generator_reseed(fortuna_generator state, const uint8_t *seed, size_t length);

/* Fills the length bytes at out with blocks, the last cut short where needed. The counter grows by their number, and
   the key stays. FORTUNA_DONE, FORTUNA_REQUEST_TOO_LONG, FORTUNA_MALFORMED, FORTUNA_UNSEEDED or
   FORTUNA_COUNTER_SPENT. */
fortuna_generator_outcome fortuna_generator_blocks(fortuna_generator state, uint8_t *out, size_t length);

/* Fills the length bytes at out as fortuna_generator_blocks does, then makes two blocks more, which become the key.
   The same numbers. */
fortuna_generator_outcome fortuna_generator_request(fortuna_generator state, uint8_t *out, size_t length);

/* The same on a state that the caller keeps at g. out must not overlap it. */
static inline uint32_t fortuna_generator_reseed_at(fortuna_generator *g, const uint8_t *seed, size_t length)
{
    fortuna_generator_outcome o = fortuna_generator_reseed(*g, seed, length);
    *g = o.next;
    return o.number;
}

static inline uint32_t fortuna_generator_blocks_at(fortuna_generator *g, uint8_t *out, size_t length)
{
    fortuna_generator_outcome o = fortuna_generator_blocks(*g, out, length);
    *g = o.next;
    return o.number;
}

static inline uint32_t fortuna_generator_request_at(fortuna_generator *g, uint8_t *out, size_t length)
{
    fortuna_generator_outcome o = fortuna_generator_request(*g, out, length);
    *g = o.next;
    return o.number;
}

/* ---- Fortuna: the generator, 32 pools, the timer of their reseeds, and seeds (Fortuna, 9.5 and 9.6) */

/* A pool: the running hash over 64 zero bytes and the pool's whole blocks, the bytes after them with zeros behind, and
   the count of the pool's bytes, headers too. The count is without the 64 zero bytes; the bit length in the padding,
   when a reseed takes the pool's D, is with them. Empty: tail and length 0, and as the chain SHA-256's hash value after
   one block of 64 zero bytes:

       da5698be 17b9b469 62335799 779fbeca 8ce5d491 c0d26243 bafef9ea 1837a9d8 */
typedef struct {
    uint32_t chain[8];
    uint8_t tail[64];
    uint64_t length;
} fortuna_pool;

/* The state. last_reseed is the clock at the last pool reseed, reseed_count their number modulo 2^32, and reseeded
   whether one was made. Any values may stand in it, save that the byte of reseeded is 0 or 1. Another byte there is
   outside what is proved, and no call looks for it. A page of flash memory that was never written, or only in part, may
   hold one: before such bytes are copied over a state, see that the one at offsetof(fortuna_state, reseeded) is 0 or 1.
   A stored state that is taken up twice gives the same keys twice; fortuna_update is made for a restart. One that was
   stored before the 2010 edition has the same layout and must not be taken up at all: the top of this file says why.

   How stale the key is: read state.key_requests, at any time between calls. It is the number of accepted requests, seed
   calls and single tries included, since the last pool reseed or the fresh start, stopping at 65,535. The request, seed
   call or try that makes the pool reseed leaves 1; tries before FORTUNA_NONE_DRAWN count too. The reseed that
   fortuna_update makes with its seed is not a pool reseed, so an update adds 1. An event, a refused call and a shuffle
   of 0 or 1 numbers change nothing. */
typedef struct {
    fortuna_generator generator;
    fortuna_pool pools[32];
    uint32_t last_reseed;
    uint32_t reseed_count;
    bool reseeded;
    uint16_t key_requests;
} fortuna_state;

/* The number, and how many pools were emptied, 0 without a pool reseed. */
typedef struct {
    uint32_t number;
    uint32_t emptied;
} fortuna_answer;

/* The same, and the value drawn, 0 unless the number is FORTUNA_DONE. */
typedef struct {
    uint32_t number;
    uint32_t emptied;
    uint64_t value;
} fortuna_draw;

/* The state before anything: unseeded, with empty pools. */
fortuna_state fortuna_new(void);

/* The calls below work on the state that the caller keeps at state, which no buffer may overlap. One call at a time on
   a state: the top of this file says why. */

/* The pool gains the source in 2 bytes, least significant first, the length in 1 byte, and the length bytes at data. No
   pool is emptied.
   FORTUNA_DONE, FORTUNA_BAD_SOURCE, FORTUNA_BAD_POOL, FORTUNA_BAD_DATA, FORTUNA_MALFORMED or FORTUNA_POOL_FULL. */
uint32_t fortuna_event(fortuna_state *state, uint32_t source, uint32_t pool, const uint8_t *data, size_t length);

/* Fills the length bytes at out. clock counts milliseconds and may wrap. A pool reseed is made first if one is due:
   pool 0 holds 64 bytes or more, and none was ever made or clock - last_reseed, modulo 2^32, is more than 100.
   FORTUNA_DONE, FORTUNA_REQUEST_TOO_LONG, FORTUNA_MALFORMED, FORTUNA_UNSEEDED or FORTUNA_COUNTER_SPENT. */
fortuna_answer fortuna_request(fortuna_state *state, uint32_t clock, uint8_t *out, size_t length);

/* The 64 bytes at seed reseed the generator; then a request for 64 bytes overwrites them with the seed of the next
   start. Store that before any byte is drawn: after a power loss the old seed would give the same bytes again.

   FORTUNA_BLANK_SEED: the page that the 64 bytes came from was never written, or was erased, so there is no seed. Give
   pool 0 as much noise as a key needs by the estimate of your sources, and ask for nothing before: the first request or
   seed write that is accepted makes the pool reseed with what is there, which takes pool 0 alone. With less than 64
   bytes in pool 0 they are refused (FORTUNA_UNSEEDED), but what 64 bytes are worth no call can tell. Then call
   fortuna_write over the page and store it. power_up in examples/c/station.c does so. The number says nothing about a
   key in use: a station that is seeded already goes on. A page that was written only in part before the power failed is
   not told from a seed.

   FORTUNA_DONE, FORTUNA_BAD_SEED, FORTUNA_BLANK_SEED, FORTUNA_MALFORMED or FORTUNA_COUNTER_SPENT. */
fortuna_answer fortuna_update(fortuna_state *state, uint32_t clock, uint8_t *seed, size_t length);

/* A request for 64 bytes overwrites the 64 bytes at seed, for the next start. Any bytes may stand there before: a blank
   page is written over as any other.
   FORTUNA_DONE, FORTUNA_BAD_SEED, FORTUNA_MALFORMED, FORTUNA_UNSEEDED or FORTUNA_COUNTER_SPENT. */
fortuna_answer fortuna_write(fortuna_state *state, uint32_t clock, uint8_t *seed, size_t length);

/* Draws a value below n, n from 1 to 2^32, in up to tries tries, 1 to 64. A try is a request for 4 bytes at clock. Of
   the number that they hold, least significant byte first, it keeps the low k bits, k the smallest with n <= 2^k. The
   first that is below n is the value, and ends the tries: each value comes from equally many 4-byte strings. If none is
   below n, the number is FORTUNA_NONE_DRAWN, the value 0, and the state has advanced by all the tries.
   FORTUNA_DONE, FORTUNA_SLOT_RANGE, FORTUNA_TRY_RANGE, FORTUNA_MALFORMED, FORTUNA_UNSEEDED, FORTUNA_COUNTER_SPENT or
   FORTUNA_NONE_DRAWN. */
fortuna_draw fortuna_random_below(fortuna_state *state, uint32_t clock, uint64_t n, uint32_t tries);

/* Shuffles the length numbers at list, at most 256 and no two equal. From the last place p, counted from 0, down to 1 a
   place below p + 1 is drawn, in up to 64 tries, and the numbers at the two places change with each other. A draw
   without a value ends it with FORTUNA_NONE_DRAWN: the list is as before, and the state has advanced by the tries made.
   FORTUNA_DONE, FORTUNA_SLOT_RANGE, FORTUNA_MALFORMED, FORTUNA_UNSEEDED, FORTUNA_COUNTER_SPENT or FORTUNA_NONE_DRAWN.
   A list of 0 or 1 numbers makes no request, so that list and state are as before; FORTUNA_DONE or
   FORTUNA_MALFORMED. */
fortuna_answer fortuna_shuffle(fortuna_state *state, uint32_t clock, uint16_t *list, size_t length);

/* ---- Calls with quotas: a list of what each source may still bring

   An instrument that chatters fills pools and brings pool 0 to 64 bytes by itself, so that the next reseed holds nearly
   nothing of the others. A list of quotas bounds what each source brings between two pool reseeds. The caller keeps the
   list beside the state, and lends it to each call: there is one function more for each of the six calls, which takes
   the list after the state and goes on as the one without.

   - An event of a source that has no record is refused (FORTUNA_NOT_LISTED), and so is one that would bring the source
     above its allowance (FORTUNA_OVER_ALLOWANCE). An accepted event adds 3 and its data's length to the bytes spent.
   - A call that made a pool reseed, which is one that emptied pools, sets all spent to 0, FORTUNA_NONE_DRAWN included.
     No other call but an accepted event changes a record.
   - Lend every call the list that the last one left. Then no source's events bring more bytes than its allowance from
     one pool reseed to the next. A call without the list neither looks at it nor changes it: after fortuna_request has
     made a pool reseed, the list is as before. An old list that is lent again counts from what it says.
   - Records may stand in any order. With their sources in rising order the check of the list, which each call makes, is
     quicker.
   - An allowance counts the bytes for every pool, and only a pool reseed gives it back. Choose allowances with which
     the sources bring pool 0 to 64 bytes. If they have all spent theirs before, no pool reseed ever comes due, and
     every event is refused with FORTUNA_OVER_ALLOWANCE from then on. A source that goes round the pools with events of
     32 bytes brings 35 bytes to pool 0 with each round of 32 * 35 = 1,120.
   - Only an allowance below 64 stops a source that sends to pool 0 alone from making a reseed come due by itself. The
     others must then feed pool 0 within theirs.
   - The list is not stored. After a power-up the pools are empty, so begin with nothing spent.
   - FORTUNA_BAD_QUOTAS has not touched the state: the list is the caller's mistake, or its memory was damaged. Set it
     up anew. */

/* A record: a source, its allowance and the bytes spent. Any values may stand in it. No event of a source above 65,535
   is accepted, but its record counts among the 64, and may have no second. */
typedef struct {
    uint32_t source;
    uint32_t allowance;
    uint32_t spent;
} fortuna_quota;

/* As the function of the same name without metered_, with the list at quotas, of as many records as `records` says.
   List, state and buffer must not overlap. Beside the numbers of that function: FORTUNA_BAD_QUOTAS, and for an event
   FORTUNA_NOT_LISTED and FORTUNA_OVER_ALLOWANCE. A shuffle of 0 or 1 numbers looks at the list too. */
uint32_t fortuna_metered_event(fortuna_state *state, fortuna_quota *quotas, size_t records, uint32_t source,
                               uint32_t pool, const uint8_t *data, size_t length);
fortuna_answer fortuna_metered_request(fortuna_state *state, fortuna_quota *quotas, size_t records, uint32_t clock,
                                       uint8_t *out, size_t length);
fortuna_answer fortuna_metered_update(fortuna_state *state, fortuna_quota *quotas, size_t records, uint32_t clock,
                                      uint8_t *seed, size_t length);
fortuna_answer fortuna_metered_write(fortuna_state *state, fortuna_quota *quotas, size_t records, uint32_t clock,
                                     uint8_t *seed, size_t length);
fortuna_draw fortuna_metered_random_below(fortuna_state *state, fortuna_quota *quotas, size_t records, uint32_t clock,
                                          uint64_t n, uint32_t tries);
fortuna_answer fortuna_metered_shuffle(fortuna_state *state, fortuna_quota *quotas, size_t records, uint32_t clock,
                                       uint16_t *list, size_t length);

/* Runs a log of calls from the state before anything. The log is length characters, a frame to a line, in capital
   hexadecimal: 01 or 05 and source, pool, data for an event; 02 and clock, n for a request of n bytes; 03 and clock,
   seed for a seed update; 04 and clock for a seed write. The source has 1 byte in 01, so that it is at most 255, and 2
   bytes in 05; clock has 4 bytes and n has 2; all most significant first. A line that starts with 05 may have 258
   characters, any other line 256. The answers go to out, a line for each line: two decimal digits, 00 or the number of
   the refusal; after 00 for 02, 03 and 04 a space and the pools emptied in two decimal digits, then, unless n = 0, a
   space and the bytes in capital hexadecimal. Stores as many characters as there is room for, and returns how many. */
size_t fortuna_log(const uint8_t *log, size_t length, uint8_t *out, size_t room);

/* ---- Pools chosen by key, for noise bursts that follow the round of pools

   With the calls above the caller names the pool of each event, as a rule the pools in turn. Noise that comes in bursts
   of the same rhythm then goes to the same pools again and again, and these may be some that are used once in years.
   The keyed scheduler chooses the pool itself, by a secret key: who does not know the key has no round to follow. It is
   a state of its own, which no call above takes, and its calls take no fortuna_state.

   UPDATE THE SEED FIRST. An empty pool is emptied too: from the 33rd event on requests are answered, even where nothing
   unknown went in. Nothing tells such a key from a good one, and anybody can work it out. So call fortuna_keyed_update
   with the stored seed before the first event. Where there is none (FORTUNA_BLANK_SEED), draw and write nothing until
   as much noise has entered the key as it needs: events_entered in examples/c/station.c counts the events.

   The scheduler key is a secret of 32 bytes. Make it by a generator of its own, neither by the station that it is to
   serve nor from the same noise, another for each device, and keep it: each start takes it again. Who knows it knows
   where every event goes, and can make bursts that follow. It is in the state, and calls leave copies on the stack.

   What happens at an event. The state counts the accepted events: that is the step number t, from 0.

   - The event at step t goes to the pool that the first byte gives, modulo 32, of AES-256 under the scheduler key of t
     as a block of 16 bytes, least significant first. fortuna_keyed_input tells it.
   - Then, if t is above 0 and 32 divides t, the step empties one pool into the key: pool i, the largest i up to 31 with
     which 32 * 2^i divides t. fortuna_keyed_output tells it. That pool's D reseeds the generator, the pool is empty
     from then on, and key_requests is 0. The event at step t is in its pool before.

         step   32   64   96   128   160   192   224   256   ..   2^35   2^36   2^37
         pool    0    1    0     2     0     1     0     3   ..     30     31     31

   - So an event in pool i enters the key once, fewer than 32 * 2^(i + 1) steps after its own, if so many events come.
     This is proved of every scheduler key and every list of calls. bin/steps prints pools and steps for a key.
   - An event answers how many pools it emptied, 0 or 1. A refused one is no step: t stays.
   - No clock, and no rule of 64 bytes: events alone empty pools. Requests and seed calls answer 0 emptied. Where no
     events come, the key stays as stale as it is; state.key_requests tells how many requests it has served.
   - After 2^64 - 1 events comes FORTUNA_STEPS_SPENT, for events alone. At a thousand a second that is after half a
     billion years: if it comes, the state was overwritten. Start fresh, from the stored seed.

   Keep the state whole. Pools, step number and scheduler key belong together: set no field, and put no part of a state
   into another. last_reseed, reseed_count and reseeded stay 0 (else FORTUNA_MALFORMED). Any step number and any
   scheduler key are taken, and a wrong one is not told. A stored state that is taken up twice gives the same keys
   twice: after a power-up begin with fortuna_keyed_new and the stored seed.

   Not there: draws, shuffles, fortuna_log and lines for the bench. For these keep a fortuna_state beside it. */

/* The state, 3,432 bytes. key_requests is the number of accepted requests and seed calls since the last step that
   emptied a pool or the fresh start, stopping at 65,535. Any values may stand in it, save that the byte of reseeded is
   0 or 1, as in a fortuna_state. */
typedef struct {
    fortuna_generator generator;
    fortuna_pool pools[32];
    uint32_t last_reseed;
    uint32_t reseed_count;
    bool reseeded;
    uint16_t key_requests;
    uint8_t scheduler_key[32];
    uint64_t step;
} fortuna_keyed;

/* The fresh start under the 32 bytes at scheduler_key: unseeded, with empty pools, at step 0. */
fortuna_keyed fortuna_keyed_new(const uint8_t scheduler_key[32]);

/* The calls below work on the state that the caller keeps at state, one at a time, and no buffer may overlap it. */

/* The pool that the step picks gains source, length and data as by fortuna_event. Then the step empties a pool or none.
   FORTUNA_DONE, FORTUNA_BAD_SOURCE, FORTUNA_BAD_DATA, FORTUNA_MALFORMED, FORTUNA_POOL_FULL, FORTUNA_STEPS_SPENT or,
   where the step empties a pool, FORTUNA_COUNTER_SPENT. */
fortuna_answer fortuna_keyed_event(fortuna_keyed *state, uint32_t source, const uint8_t *data, size_t length);

/* Fills the length bytes at out.
   FORTUNA_DONE, FORTUNA_REQUEST_TOO_LONG, FORTUNA_MALFORMED, FORTUNA_UNSEEDED or FORTUNA_COUNTER_SPENT. */
fortuna_answer fortuna_keyed_request(fortuna_keyed *state, uint8_t *out, size_t length);

/* As fortuna_update: the 64 bytes at seed reseed the generator, and the seed of the next start overwrites them. Store
   that before any byte is drawn.
   FORTUNA_DONE, FORTUNA_BAD_SEED, FORTUNA_BLANK_SEED, FORTUNA_MALFORMED or FORTUNA_COUNTER_SPENT. */
fortuna_answer fortuna_keyed_update(fortuna_keyed *state, uint8_t *seed, size_t length);

/* As fortuna_write: a request for 64 bytes overwrites the 64 bytes at seed, for the next start.
   FORTUNA_DONE, FORTUNA_BAD_SEED, FORTUNA_MALFORMED, FORTUNA_UNSEEDED or FORTUNA_COUNTER_SPENT. */
fortuna_answer fortuna_keyed_write(fortuna_keyed *state, uint8_t *seed, size_t length);

/* The same with the list at quotas, of as many records as `records` says ('Calls with quotas' above). An event that
   empties a pool stands for the pool reseed: it sets all spent to 0, its own source's too. A request and a seed call
   look at the list and change nothing there. Beside the numbers of the function without a list: FORTUNA_BAD_QUOTAS, and
   for an event FORTUNA_NOT_LISTED and FORTUNA_OVER_ALLOWANCE.

   Choose allowances with which the sources bring 33 events from a fresh start, and then 32 from one emptying to the
   next. If they have all spent theirs before, no step empties a pool any more, and every event is refused with
   FORTUNA_OVER_ALLOWANCE from then on. */
fortuna_answer fortuna_keyed_metered_event(fortuna_keyed *state, fortuna_quota *quotas, size_t records, uint32_t source,
                                           const uint8_t *data, size_t length);
fortuna_answer fortuna_keyed_metered_request(fortuna_keyed *state, const fortuna_quota *quotas, size_t records,
                                             uint8_t *out, size_t length);
fortuna_answer fortuna_keyed_metered_update(fortuna_keyed *state, const fortuna_quota *quotas, size_t records,
                                            uint8_t *seed, size_t length);
fortuna_answer fortuna_keyed_metered_write(fortuna_keyed *state, const fortuna_quota *quotas, size_t records,
                                           uint8_t *seed, size_t length);

/* The pool, 0 to 31, that the event at a step goes to under a scheduler key. Both may be any. */
uint32_t fortuna_keyed_input(const uint8_t scheduler_key[32], uint64_t step);

/* The pool that a step empties, or 32 where it empties none. */
uint32_t fortuna_keyed_output(uint64_t step);

/* ---- Logs of both kinds: with events by frame 01, as in archives, and by frame 05, as new hubs write them

   fortuna_convert writes a lent log into a lent buffer, with all its events by the frame that is wanted. bin/convert is
   the command for files.

   - 01 and the source's byte become 05, 00 and that byte, or the other way round. Nothing else changes: frames 02, 03
     and 04, line feeds, and events that are by the wanted frame already are written as they stand. An event's pool and
     data are not looked at: what a station would refuse (FORTUNA_BAD_POOL, FORTUNA_BAD_DATA) is converted too.
   - fortuna_log gives equal answers for a log and for its whole conversion. A line by frame 01 that is converted to 05
     and back is the line that it was.
   - Every line must be a frame, as fortuna_log takes it (else FORTUNA_NO_FRAME). An empty line is none, nor is one with
     a carriage return. A line feed ends a line, and the end of the log ends a last line that has none. That one is
     written without a line feed, and needs room for its characters alone.
   - The first line that is refused ends the call, also where later lines would be refused by another number. The lines
     before it stand in out, and the rest of out is as before.
   - Room that is always enough: for 05 4/3 of the log's length, rounded up, which is length + (length + 2) / 3; for 01
     the log's length. FORTUNA_NO_ROOM does not come then.
   - A log of any length, in little memory: cut it after line feeds, convert piece after piece, each with room that is
     always enough, and put together what is written. Where a line of a piece is refused, stop, and add to its number
     the line feeds of all pieces before. So come the bytes, the number and the line of the whole log. 259 characters
     without a line feed are more than a frame has: give them as a piece, which is refused (FORTUNA_NO_FRAME).
     examples/c/convert.c does all this. */

/* The number; the line that was refused, from 1, and 0 where none was; and how many bytes were written to out. */
typedef struct {
    uint32_t number;
    size_t line;
    size_t written;
} fortuna_conversion;

/* Converts the length characters at log into the room bytes at out, to events by frame 05 where wide is set, else by
   frame 01. The two may not overlap: a log is not converted in place.
   FORTUNA_DONE, FORTUNA_NO_FRAME, FORTUNA_LARGE_SOURCE, which comes only where wide is not set, or FORTUNA_NO_ROOM. */
fortuna_conversion fortuna_convert(const uint8_t *log, size_t length, bool wide, uint8_t *out, size_t room);

/* ---- The events behind a pool, for whoever questions a key

   A pool's byte string is what its events have brought, in their order. Each brings its source in 2 bytes, least
   significant first, a byte with the length of its data, 1 to 32, and the data. fortuna_entry_at reads the event at a
   place of such a string, and tells the next place. A whole string is read by this loop:

       fortuna_entry e = fortuna_entry_at(string, length, 0);
       for (; e.found; e = fortuna_entry_at(string, length, e.next))
           use(e.source, string + e.from, e.next - e.from);
       if (e.number != FORTUNA_DONE)
           no_string_of_events(e.place);

   - It is proved that a string comes from one list of events only, order included.
   - It is proved too, of events with sources up to 65,535 and 1 to 32 bytes of data, that the string of a list is read
     as that list, to its end, and that, read from 0, exactly the strings that no list gives come to FORTUNA_NO_EVENT.
     The empty string is that of the empty list.
   - A pool takes no more than 2^61 - 65 bytes (FORTUNA_POOL_FULL). The reader does not look at that.
   - Start at 0, and go on from next. Any place may be asked for, but between two starts an event's bytes may look like
     another event.
   - Only the string is read: whether a station took these events, the reader can't tell. No state holds a string, but
     running hashes alone. bin/logbook --strings works strings out from a log of calls.
   - Reseed N uses pool i where 2^i divides N. With that the strings used at each reseed tell every event that has
     entered the key, with its pool and its order there: this is proved of every list of calls. The seed of an update
     enters the key too and is no event. */

/* What stands at a place of a string. Where found is set it is an event: its source; where its data start; and the next
   place, up to which they reach. Where found is not set, it is the end with FORTUNA_DONE and no event with
   FORTUNA_NO_EVENT: the source is 0 then, and from and next are the place. place is always the one asked for. */
typedef struct {
    uint32_t number;
    uint32_t source;
    bool found;
    size_t place;
    size_t from;
    size_t next;
} fortuna_entry;

/* The event at a place, from 0, of the length bytes at string. The place `length` is the end.
   FORTUNA_DONE or FORTUNA_NO_EVENT. */
fortuna_entry fortuna_entry_at(const uint8_t *string, size_t length, size_t place);

/* ---- Health tests of a noise source (NIST SP 800-90B, 4.4.1 and 4.4.2)

   They tell a source that is stuck, or that gives one value too often, before its samples become events. A sample is an
   unsigned 32-bit reading. Each test has a cutoff C, from 2 to 512:

   - the repetition count test fails at the sample with which the last C samples are equal;
   - the adaptive proportion test takes the samples in windows of 512, and fails at the sample with which the first of
     the window has come C times in the window, that first time counted.

   C follows from the entropy that a sample has by estimate and from the rate of false alarms: docs/HEALTH.md has a
   table, and bin/health works others out. For 1 bit a sample and a rate of 2^-30 they are 31 and 325.

   How to use them:

   - Each source has a state of its own. Samples of two sources in turn would hide that one of them is stuck.
   - Lend as samples what becomes the event. Where that is the low bits of a reading, lend those alone: high bits that
     move with the ground would hide that the low ones are stuck.
   - Keep to the same cutoffs as long as a state is carried on; for others begin from fortuna_health_new.
   - Samples may be cut into calls anywhere. The first that fails is the same, and so is the state left.
   - Ask fortuna_health_passed and not only for the number: a sample that fails is no refusal.
   - Test first: samples become events only after the call that they were lent to has passed. Where it has not, none of
     them does. Those from place on were not found good, those after it not even read, and those just before it may be
     stuck already. Leave the source out from then on, until somebody has seen to it.
   - C - 1 equal samples pass the repetition count test, so up to so many of a stuck source can be in events before it
     is told. With C or more lent at a time, a source that gets stuck between two calls has none there.

   No call here reads or changes a fortuna_state. So whoever reads the samples, an interrupt too, may test them while a
   call on the station runs. One call at a time on a test state. */

/* The test state of a source, 20 bytes: the last sample, how often it has come in a row, the window's first sample, how
   often that has come in the window, and how many samples the window has seen. All 0 is the fresh state: no sample was
   seen. Any values may stand in it; FORTUNA_MALFORMED_HEALTH says which are refused. */
typedef struct {
    uint32_t last;
    uint32_t run;
    uint32_t first;
    uint32_t count;
    uint32_t seen;
} fortuna_health;

/* The number, which tests the sample at place fails, and its place, from 0. Without a failing sample, and after a
   refusal, neither test is set and the place is 0. */
typedef struct {
    uint32_t number;
    bool repetition;
    bool proportion;
    size_t place;
} fortuna_health_answer;

/* The fresh state. */
fortuna_health fortuna_health_new(void);

/* Tests the length samples at samples, on the state that the caller keeps at state, which they may not overlap. Both
   tests look at every sample, and one sample can fail both. The first that fails ends the call: its place and the tests
   are told, nothing after it is read, and the state is fresh again. Otherwise the state goes on to the next call. After
   512 samples the window's first, count and seen are 0 and the next window begins; run goes on.
   FORTUNA_DONE, FORTUNA_CUTOFF_RANGE or FORTUNA_MALFORMED_HEALTH. */
fortuna_health_answer fortuna_health_test(fortuna_health *state, const uint32_t *samples, size_t length,
                                          uint32_t repetition, uint32_t proportion);

/* Whether the samples may be used: the call was not refused, and none of them failed. */
static inline bool fortuna_health_passed(fortuna_health_answer a)
{
    return a.number == FORTUNA_DONE && !a.repetition && !a.proportion;
}

/* ---- CTR_DRBG (NIST SP 800-90A, 10.2.1), for permanent stations whose network requires it

   It is the standard's generator with AES-256 and no derivation function. Its state has nothing to do with a
   fortuna_state: it has no pools and no clock, and no call here reads or changes one. Where no rule asks for it, draw
   from Fortuna: that takes in noise as it comes, and this has only what its calls are given.

   How to use it:

   - Instantiate it once after a power-up, with 48 bytes of entropy input. Then make requests, and reseed it with 48 new
     bytes as often as your network asks.
   - Entropy input must have full entropy: 48 bytes of which nobody can tell anything, not one bit. There is no
     derivation function that makes such bytes of many weaker ones, so a sensor's readings won't do, and no call can
     tell. examples/c/station.c draws them from a seeded station by fortuna_request. Those are no better than the noise
     that went into the station, nor than its key: 48 bytes made under one key of 32 bytes hold at most 256 bits. Ask
     your network whether it takes them. Never give the same 48 bytes twice.
   - The personalization string and the additional input have up to 48 bytes each and need not be secret. A serial
     number as the personalization string makes two stations differ that would else start alike. Zeros at the end fill
     up what is shorter.
   - None to give: length 0, with a pointer that is still not null. In a request an empty additional input is none, and
     zeros are an input: one byte of 0 gives other bytes than none.
   - A request is for up to 65,536 bytes. One for 0 bytes is a request too: it changes Key and V, and counts.
   - After a seeding 2^48 requests are accepted, then none (FORTUNA_SEEDING_NEEDED) until a reseed.
   - Any state may be passed. A stored one that is taken up twice gives the same bytes twice, so store none: instantiate
     anew at a power-up.
   - One call at a time on a state. out may overlap nothing else that the call is lent, and an input may not overlap
     the state. The two inputs of a seeding may overlap each other.

   Where more than one number applies, it is the first of FORTUNA_ENTROPY_LENGTH, FORTUNA_INPUT_TOO_LONG,
   FORTUNA_REQUEST_TOO_LONG and FORTUNA_SEEDING_NEEDED, in this order. A refused call changes and counts nothing. */

/* The state, 56 bytes: Key; V, most significant byte first; and the reseed counter, which is 0 before any seeding, 1
   after one, and 1 more with each request that is accepted. Any values may stand in it. */
typedef struct {
    uint8_t key[32];
    uint8_t v[16];
    uint64_t reseed_counter;
} fortuna_ctr_drbg;

/* The state before any seeding: all 0. */
fortuna_ctr_drbg fortuna_ctr_drbg_new(void);

/* The first seeding (10.2.1.3.1), with the length bytes of entropy input at entropy, which must be 48, and up to 48
   bytes at personalization. Nothing is read of the state, so that one that was seeded before starts anew.
   FORTUNA_DONE, FORTUNA_ENTROPY_LENGTH or FORTUNA_INPUT_TOO_LONG. */
uint32_t fortuna_ctr_drbg_instantiate(fortuna_ctr_drbg *state, const uint8_t *entropy, size_t length,
                                      const uint8_t *personalization, size_t personalization_length);

/* A reseed (10.2.1.4.1), with 48 new bytes of entropy input and up to 48 bytes at additional. What the state holds
   stays in: who knows the new entropy input alone does not know the next bytes.
   FORTUNA_DONE, FORTUNA_ENTROPY_LENGTH, FORTUNA_INPUT_TOO_LONG or FORTUNA_SEEDING_NEEDED. */
uint32_t fortuna_ctr_drbg_reseed(fortuna_ctr_drbg *state, const uint8_t *entropy, size_t length,
                                 const uint8_t *additional, size_t additional_length);

/* A request (10.2.1.5.1): fills the length bytes at out, with up to 48 bytes at additional.
   FORTUNA_DONE, FORTUNA_INPUT_TOO_LONG, FORTUNA_REQUEST_TOO_LONG or FORTUNA_SEEDING_NEEDED. */
uint32_t fortuna_ctr_drbg_generate(fortuna_ctr_drbg *state, uint8_t *out, size_t length, const uint8_t *additional,
                                   size_t additional_length);

#ifdef __cplusplus
}
#endif

#endif
