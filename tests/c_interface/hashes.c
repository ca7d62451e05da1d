/* Hashes messages, and gives pools an event, as each line of standard input says, and prints what came of it.
   tests/c_interface/hashes.py writes the one and reads the other.

       message MESSAGE
       event POOL CHAIN TAIL LENGTH SOURCE DATA

   All is hexadecimal, and numbers have their most significant byte first. A message may be empty; back come its SHA-256
   and its D. An event comes to a state that is fresh but for the pool of this number, which has CHAIN, of 32 bytes,
   TAIL, of 64, and LENGTH; back come the three as they are then. From a length of 64 on any chain may stand in a pool.
   So where the event completes a block, it shows the compression of that block from any hash value. A refused call ends
   the program, and so does one that changes more than it may, and a line of another form. */
#define _POSIX_C_SOURCE 200809L
#include "fortuna.h"
#include "lent.h"
#include "same_state.h"

#include <inttypes.h>

enum { DIGEST = 32, CHAIN = 32, TAIL = 64, POOLS = 32, ALIGNED = 8 };

/* ---- buffers at each distance from an aligned place, in turn */

static uint8_t *lend_at(size_t distance, size_t length)
{
    return (uint8_t *)memset(lend(distance + length), GUARD_BYTE, distance) + distance;
}

static void give_back_at(size_t distance, uint8_t *buffer, size_t length)
{
    for (size_t i = 1; i <= distance; i++)
        if (*(buffer - i) != GUARD_BYTE)
            stop("a call wrote before its buffer");
    give_back(buffer - distance, distance + length);
}

/* ---- parts of a line */

/* None is left: an empty part, for a message of no bytes. */
static char *last_part(void)
{
    static char none[] = "";
    char *found = strtok(NULL, " \n");
    if (found && strtok(NULL, " \n"))
        stop("a line that is too long");
    return found ? found : none;
}

static const char *part(void)
{
    const char *found = strtok(NULL, " \n");
    if (!found)
        stop("a line that is too short");
    return found;
}

/* The bytes of digits, of which there must be so many. */
static void decode_all(const char *digits, uint8_t *bytes, size_t length)
{
    if (strlen(digits) != 2 * length)
        stop("a part of a line that has another length");
    decode(digits, 2 * length, bytes);
}

/* A number that takes so many bytes, at most eight. */
static uint64_t number_of(const char *digits, size_t length)
{
    uint8_t bytes[8];
    uint64_t number = 0;
    decode_all(digits, bytes, length);
    for (size_t i = 0; i < length; i++)
        number = number << 8 | bytes[i];
    return number;
}

/* ---- messages */

typedef uint32_t hash(const uint8_t *data, size_t length, uint8_t digest[DIGEST]);

static void print_digest(hash *of, size_t turn, const uint8_t *message, size_t length)
{
    size_t distance = turn % ALIGNED, other = turn / ALIGNED % ALIGNED;
    uint8_t *data = lend_at(distance, length), *digest = lend_at(other, DIGEST);
    memcpy(data, message, length);
    if (of(data, length, digest) != FORTUNA_DONE)
        stop("a message was refused");
    if (memcmp(data, message, length) != 0)
        stop("a call changed its message");
    print_bytes(digest, DIGEST);
    give_back_at(distance, data, length);
    give_back_at(other, digest, DIGEST);
}

static void answer_message(size_t turn)
{
    char *digits = last_part();
    size_t length = strlen(digits) / 2;
    decode_all(digits, (uint8_t *)digits, length);
    print_digest(fortuna_sha256, turn, (const uint8_t *)digits, length);
    putchar(' ');
    print_digest(fortuna_sha_d256, turn, (const uint8_t *)digits, length);
    putchar('\n');
}

/* ---- events */

static fortuna_pool pool_part(void)
{
    uint8_t bytes[CHAIN];
    fortuna_pool pool = {0};
    decode_all(part(), bytes, CHAIN);
    for (size_t i = 0; i < CHAIN; i++)
        pool.chain[i / 4] = pool.chain[i / 4] << 8 | bytes[i];
    decode_all(part(), pool.tail, TAIL);
    pool.length = number_of(part(), sizeof pool.length);
    return pool;
}

static void print_pool(const fortuna_pool *pool)
{
    for (size_t i = 0; i < CHAIN / 4; i++)
        printf("%08" PRIx32, pool->chain[i]);
    putchar(' ');
    print_bytes(pool->tail, TAIL);
    printf(" %016" PRIx64 "\n", pool->length);
}

/* The pool after the event. All else of the state must be as before. */
static fortuna_pool after_event(
    uint32_t number, const fortuna_pool *pool, uint32_t source, const uint8_t *data, size_t length)
{
    fortuna_state before = fortuna_new(), *state = lend(sizeof *state);
    before.pools[number] = *pool;
    *state = before;
    if (fortuna_event(state, source, number, data, length) != FORTUNA_DONE)
        stop("an event was refused");
    fortuna_pool after = state->pools[number];
    state->pools[number] = *pool;
    if (!same_state(state, &before))
        stop("an event changed more than its pool");
    give_back(state, sizeof *state);
    return after;
}

static void answer_event(size_t turn)
{
    uint32_t number = (uint32_t)number_of(part(), 1);
    if (number >= POOLS)
        stop("a line with no pool");
    fortuna_pool pool = pool_part();
    uint32_t source = (uint32_t)number_of(part(), 2);
    char *digits = last_part();
    size_t length = strlen(digits) / 2, distance = turn % ALIGNED;
    uint8_t *data = lend_at(distance, length);
    decode_all(digits, (uint8_t *)digits, length);
    memcpy(data, digits, length);
    fortuna_pool after = after_event(number, &pool, source, data, length);
    if (memcmp(data, digits, length) != 0)
        stop("an event changed its data");
    print_pool(&after);
    give_back_at(distance, data, length);
}

/* ---- lines */

int main(void)
{
    char *line = NULL;
    size_t room = 0;
    for (size_t turn = 0; getline(&line, &room, stdin) > 0; turn++) {
        const char *kind = strtok(line, " \n");
        if (kind && strcmp(kind, "message") == 0)
            answer_message(turn);
        else if (kind && strcmp(kind, "event") == 0)
            answer_event(turn);
        else
            stop("a line with neither a message nor an event");
    }
    free(line);
    return 0;
}
