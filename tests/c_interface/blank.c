/* Blank seeds (02, vii) as C sees them: an update from 64 equal bytes is refused on every state, and leaves state and
   page as they were; with one bit other it is as any update. A write asks nothing of the page. */
#include "fortuna.h"
#include "lent.h"
#include "same_state.h"

enum { SEED = 64, BYTES = 256, MOST_DATA = 32, READING = 1000 };

static void check(bool holds, const char *what, const char *state, unsigned at)
{
    if (holds)
        return;
    printf("c_interface: blank: %s, %s, at %u\n", what, state, at);
    exit(1);
}

static bool answers(fortuna_answer a, uint32_t number, uint32_t emptied)
{
    return a.number == number && a.emptied == emptied;
}

/* ---- states, and what an update from other bytes and a write answer there */

typedef struct {
    const char *name;
    fortuna_state state;
    uint32_t update, write, emptied;
} given;

static fortuna_state seeded(void)
{
    fortuna_state state = fortuna_new();
    uint8_t seed[SEED] = {1};
    check(fortuna_update(&state, 0, seed, SEED).number == FORTUNA_DONE, "a seed", "fresh", 0);
    return state;
}

/* Pool 0 has 64 bytes and more, so that the next call makes a pool reseed. */
static fortuna_state due(fortuna_state state)
{
    const uint8_t noise[MOST_DATA] = {5};
    for (unsigned i = 0; i < 2; i++)
        check(fortuna_event(&state, 900, 0, noise, MOST_DATA) == FORTUNA_DONE, "an event", "due", i);
    return state;
}

static fortuna_state spent(void)
{
    fortuna_state state = seeded();
    memset(state.generator.counter, 0xff, sizeof state.generator.counter);
    return state;
}

static fortuna_state malformed(fortuna_state state)
{
    state.last_reseed = 1;
    return state;
}

/* ---- what is asked of each */

static void blank_updates(const given *g)
{
    for (unsigned byte = 0; byte < BYTES; byte++) {
        fortuna_state state = g->state;
        uint8_t page[SEED], before[SEED];
        memset(page, (int)byte, SEED);
        memcpy(before, page, SEED);
        fortuna_answer a = fortuna_update(&state, READING, page, SEED);
        check(answers(a, 36, 0), "an update from a blank page", g->name, byte);
        check(memcmp(page, before, SEED) == 0, "the page after a refused update", g->name, byte);
        check(same_state(&state, &g->state), "the state after a refused update", g->name, byte);
    }
}

/* One bit other, at each place. */
static void other_updates(const given *g)
{
    for (unsigned place = 0; place < SEED; place++) {
        fortuna_state state = g->state;
        uint8_t page[SEED];
        memset(page, (int)(4 * place), SEED);
        page[place] ^= (uint8_t)(1 << place % 8);
        fortuna_answer a = fortuna_update(&state, READING, page, SEED);
        check(answers(a, g->update, g->emptied), "an update from a page with one bit other", g->name, place);
        check(same_state(&state, &g->state) == (g->update != FORTUNA_DONE), "the state after it", g->name, place);
    }
}

static void wrong_lengths(const given *g)
{
    for (unsigned length = SEED - 1; length <= SEED + 1; length += 2) {
        fortuna_state state = g->state;
        uint8_t *page = lend(length);
        memset(page, 0xff, length);
        check(fortuna_update(&state, READING, page, length).number == FORTUNA_BAD_SEED, "an update", g->name, length);
        check(fortuna_write(&state, READING, page, length).number == FORTUNA_BAD_SEED, "a write", g->name, length);
        check(same_state(&state, &g->state), "the state after a refused call", g->name, length);
        give_back(page, length);
    }
}

/* What a write gives is the same over every page. */
static void writes(const given *g)
{
    const bool taken = g->write == FORTUNA_DONE;
    uint8_t first[SEED];
    for (unsigned byte = 0; byte < BYTES; byte++) {
        fortuna_state state = g->state;
        uint8_t page[SEED], before[SEED];
        memset(page, (int)byte, SEED);
        memcpy(before, page, SEED);
        fortuna_answer a = fortuna_write(&state, READING, page, SEED);
        check(answers(a, g->write, taken ? g->emptied : 0), "a write over a blank page", g->name, byte);
        if (byte == 0)
            memcpy(first, page, SEED);
        check(memcmp(page, taken ? first : before, SEED) == 0, "the page after a write", g->name, byte);
        check(same_state(&state, &g->state) != taken, "the state after a write", g->name, byte);
    }
    check(!taken || memcmp(first, first + 1, SEED - 1) != 0, "what a write gives", g->name, 0);
}

/* A digitiser fresh from the works: no seed, so noise; what is then written over the page is the next start's seed. */
static void power_up(uint8_t byte)
{
    fortuna_state state = fortuna_new();
    uint8_t page[SEED], key[16];
    memset(page, byte, SEED);
    check(answers(fortuna_update(&state, 0, page, SEED), FORTUNA_BLANK_SEED, 0), "an update", "power-up", byte);
    check(answers(fortuna_request(&state, 0, key, sizeof key), FORTUNA_UNSEEDED, 0), "a request", "power-up", byte);
    check(answers(fortuna_write(&state, 0, page, SEED), FORTUNA_UNSEEDED, 0), "a write", "power-up", byte);
    state = due(state);
    check(answers(fortuna_write(&state, 0, page, SEED), FORTUNA_DONE, 1), "a write", "after noise", byte);
    check(answers(fortuna_request(&state, 0, key, sizeof key), FORTUNA_DONE, 0), "a request", "after noise", byte);
    state = fortuna_new();
    check(answers(fortuna_update(&state, 0, page, SEED), FORTUNA_DONE, 0), "an update", "the next power-up", byte);
}

int main(void)
{
    const given all[] = {
        {"fresh", fortuna_new(), FORTUNA_DONE, FORTUNA_UNSEEDED, 0},
        {"seeded", seeded(), FORTUNA_DONE, FORTUNA_DONE, 0},
        {"fresh, a reseed due", due(fortuna_new()), FORTUNA_DONE, FORTUNA_DONE, 1},
        {"seeded, a reseed due", due(seeded()), FORTUNA_DONE, FORTUNA_DONE, 1},
        {"counter spent", spent(), FORTUNA_COUNTER_SPENT, FORTUNA_COUNTER_SPENT, 0},
        {"counter spent, a reseed due", due(spent()), FORTUNA_COUNTER_SPENT, FORTUNA_COUNTER_SPENT, 0},
        {"malformed", malformed(seeded()), FORTUNA_MALFORMED, FORTUNA_MALFORMED, 0},
        {"malformed, counter spent", malformed(spent()), FORTUNA_MALFORMED, FORTUNA_MALFORMED, 0},
        {"malformed, a reseed due", malformed(due(seeded())), FORTUNA_MALFORMED, FORTUNA_MALFORMED, 0},
    };
    for (size_t i = 0; i < sizeof all / sizeof *all; i++) {
        blank_updates(&all[i]);
        other_updates(&all[i]);
        wrong_lengths(&all[i]);
        writes(&all[i]);
    }
    power_up(0xff);
    power_up(0x00);
    printf("c_interface: an update from 64 equal bytes is refused on %zu kinds of states, and leaves no trace\n",
        sizeof all / sizeof *all);
    return 0;
}
