/* steps FIRST LAST <KEY

   Which pools the keyed scheduler uses: for each step from FIRST to LAST the pool that its event goes to, and the pool
   that the step empties, if it empties one; then for each pool the next step that empties it. KEY is the 32 bytes of
   the scheduler key. It is a secret, so it comes on standard input: words of a command line can be read by others.

       step 32: event to pool 3, empties pool 0
       pool 0: emptied next at step 32 from step 7 on, at step 96 from step 40 on

   bin/steps runs this. The pools are those that the library gives.

   Exit status: 0 all was written; 2 bad arguments, no key of 32 bytes, or reading or writing failed. */
#define _POSIX_C_SOURCE 200809L
#include "fortuna.h"
#include "streams.h"

enum { KEY = 32, POOLS = 32, PERIOD = 32 };
enum { PIECE = 65536, MOST_WRITTEN = 256 }; /* characters written at once, and more than a line has */

/* ---- writing */

static char out[PIECE];
static size_t used; /* characters that wait to be written */

static void flush(void)
{
    write_all((const uint8_t *)out, used);
    used = 0;
}

/* Where the next characters go, with room for a line. */
static char *room(void)
{
    if (sizeof out - used < MOST_WRITTEN)
        flush();
    return out + used;
}

/* ---- steps */

static void put_step(const uint8_t key[KEY], uint64_t step)
{
    char *line = room();
    uint32_t emptied = fortuna_keyed_output(step);
    if (step == UINT64_MAX)
        used += (size_t)sprintf(line, "step %" PRIu64 ": no event is taken, %d\n", step, FORTUNA_STEPS_SPENT);
    else if (emptied < POOLS)
        used += (size_t)sprintf(line, "step %" PRIu64 ": event to pool %" PRIu32 ", empties pool %" PRIu32 "\n", step,
                                fortuna_keyed_input(key, step), emptied);
    else
        used += (size_t)sprintf(line, "step %" PRIu64 ": event to pool %" PRIu32 "\n", step,
                                fortuna_keyed_input(key, step));
}

static void put_steps(const uint8_t key[KEY], uint64_t first, uint64_t last)
{
    for (uint64_t step = first;; step++) {
        put_step(key, step);
        show_progress(step - first + 1, "steps written");
        if (step == last)
            return;
    }
}

/* ---- when a pool is emptied next */

/* The first step from start on that empties the pool: an odd multiple of 32 * 2^pool, for the last pool any multiple
   above 0. UINT64_MAX, which is no multiple, where no such step is made. */
static uint64_t next_emptying(uint32_t pool, uint64_t start)
{
    const uint64_t period = (uint64_t)PERIOD << pool;
    uint64_t times = start / period + (start % period != 0);
    if (pool < POOLS - 1)
        times |= 1;
    else if (times == 0)
        times = 1;
    if (times > UINT64_MAX / period)
        return UINT64_MAX;
    const uint64_t step = times * period;
    if (fortuna_keyed_output(step) != pool) {
        flush();
        fprintf(stderr, "steps: the library does not empty pool %" PRIu32 " at step %" PRIu64 "\n", pool, step);
        exit(2);
    }
    return step;
}

static void put_next(uint32_t pool, uint64_t start)
{
    uint64_t step = next_emptying(pool, start);
    if (step == UINT64_MAX)
        used += (size_t)sprintf(out + used, "never before step 2^64 - 1 from step %" PRIu64 " on", start);
    else
        used += (size_t)sprintf(out + used, "at step %" PRIu64 " from step %" PRIu64 " on", step, start);
}

static void put_pools(uint64_t first, uint64_t last)
{
    for (uint32_t pool = 0; pool < POOLS; pool++) {
        used += (size_t)sprintf(room(), "pool %" PRIu32 ": emptied next ", pool);
        put_next(pool, first);
        used += (size_t)sprintf(out + used, ", ");
        put_next(pool, last);
        out[used++] = '\n';
    }
}

/* ---- the key and the words */

static bool take_key(uint8_t key[KEY])
{
    uint8_t bytes[KEY + 1];
    size_t length = 0, count;
    while (length < sizeof bytes && (count = read_some(bytes + length, sizeof bytes - length)) > 0)
        length += count;
    memcpy(key, bytes, KEY);
    return length == KEY;
}

static bool take_number(const char *word, uint64_t *number)
{
    char *end;
    errno = 0;
    *number = strtoull(word, &end, 10);
    return *word >= '0' && *word <= '9' && !*end && !errno;
}

int main(int words, char **word)
{
    uint64_t first, last;
    uint8_t key[KEY];
    speaker = "steps";
    if (words != 3 || !take_number(word[1], &first) || !take_number(word[2], &last) || first > last || !take_key(key)) {
        fprintf(stderr, "usage: steps FIRST LAST <KEY\n");
        return 2;
    }
    put_steps(key, first, last);
    put_pools(first, last);
    flush();
    end_output();
    return 0;
}
