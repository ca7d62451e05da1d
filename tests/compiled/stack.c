/* The stack that each exported call needs, and what it leaves there: each call runs in a thread on a painted stack.
   Prints a line for each function: its name, the most bytes of stack that a case of it needed, and for calls on a
   state the most copies of its key that stood there when the call had ended: of the key before it, and of the key after
   it; for CTR_DRBG then the same of V, and for the keyed scheduler of the scheduler key. Stops where such a call is
   refused that should be accepted, or the other way round: a refused one needs less. Stops too where a conversion or
   the reader of a pool's string does not answer as it should. */
#define _GNU_SOURCE
#include "fortuna.h"

#include <pthread.h>
#include <stdio.h>
#include <stdlib.h>
#include <string.h>

enum { STACK = 1 << 20, PAINT = 0xa5, LIST = 256, SEED = 64, ROOM = 1 << 20, SAMPLES = 1000, RECORDS = 64 };
enum { SOURCE = 900, ENTROPY = 48, MOST = 65536, LONGEST = 125 };

static uint8_t *stack;
static fortuna_state state;
static fortuna_generator generator;
static fortuna_aes256_key expanded;
static fortuna_aes256_bytewise_key bytewise_expanded;
static uint8_t data[ROOM], out[ROOM], seed[SEED];
static uint16_t list[LIST];
static fortuna_quota quotas[RECORDS];
static size_t records;
static fortuna_health health;
static uint32_t samples[SAMPLES];
static fortuna_ctr_drbg drbg;
static fortuna_keyed keyed;
static char lines[1 << 16];
static size_t line_count;

static void require(bool holds, const char *call, const char *what)
{
    if (holds)
        return;
    fprintf(stderr, "stack: %s %s\n", call, what);
    exit(1);
}

/* ---- states, seeds and quotas to start from */

/* A full list, with sources that fall so that the check of the list takes its longest way. SOURCE stands last. */
static void fill_quotas(void)
{
    records = RECORDS;
    for (uint32_t i = 0; i < RECORDS; i++)
        quotas[i] = (fortuna_quota){.source = SOURCE + RECORDS - 1 - i, .allowance = UINT32_MAX, .spent = 1};
}

static void seeded(void)
{
    fill_quotas();
    state = fortuna_new();
    for (int i = 0; i < SEED; i++)
        seed[i] = (uint8_t)i;
    require(fortuna_update(&state, 0, seed, sizeof seed).number == FORTUNA_DONE, "the first update", "is refused");
    generator = state.generator;
    for (int i = 0; i < LIST; i++)
        list[i] = (uint16_t)i;
}

/* The next draw makes a pool reseed that uses all 32 pools, none of them empty. */
static void due(void)
{
    seeded();
    for (uint32_t pool = 0; pool < 32; pool++)
        for (int i = 0; i < 3; i++)
            require(fortuna_event(&state, SOURCE, pool, data, 32) == FORTUNA_DONE, "an event", "is refused");
    state.reseeded = true;
    state.reseed_count = UINT32_MAX;
}

static void malformed(void)
{
    seeded();
    state.pools[31].tail[63] = 1;
}

static void blank(void)
{
    seeded();
    memset(seed, 0xff, sizeof seed);
}

static void fresh(void)
{
    seeded();
    state = fortuna_new();
}

static void rising(void)
{
    seeded();
    for (uint32_t i = 0; i < RECORDS; i++)
        quotas[i].source = SOURCE + 1 - RECORDS + i;
}

static void no_records(void)
{
    seeded();
    records = 0;
}

static void due_no_records(void)
{
    due();
    records = 0;
}

static void overspent(void)
{
    seeded();
    quotas[RECORDS - 1].allowance = 0;
}

/* Of SOURCE no event fits. */
static void spent(void)
{
    seeded();
    quotas[RECORDS - 1].allowance = 4;
}

/* Samples that pass both tests, past the end of a window. */
static void varied(void)
{
    health = fortuna_health_new();
    for (uint32_t i = 0; i < SAMPLES; i++)
        samples[i] = i;
}

static void stuck(void)
{
    varied();
    memset(samples, 0, sizeof samples);
}

static void malformed_health(void)
{
    varied();
    health.seen = 512;
}

/* Bytes in Key and V that nothing else has, so that copies of them are told. */
static void drbg_seeded(void)
{
    for (size_t i = 0; i < sizeof drbg.key; i++)
        drbg.key[i] = (uint8_t)(3 * i + 1);
    for (size_t i = 0; i < sizeof drbg.v; i++)
        drbg.v[i] = (uint8_t)(5 * i + 2);
    drbg.reseed_counter = 1;
}

static void drbg_unseeded(void)
{
    drbg_seeded();
    drbg.reseed_counter = 0;
}

/* The second event is at a step that empties a pool, and no pool is empty. */
static void keyed_seeded(void)
{
    uint8_t scheduler_key[32];
    for (size_t i = 0; i < sizeof scheduler_key; i++)
        scheduler_key[i] = (uint8_t)(7 * i + 4);
    due();
    keyed = fortuna_keyed_new(scheduler_key);
    keyed.generator = state.generator;
    memcpy(keyed.pools, state.pools, sizeof keyed.pools);
    keyed.step = 31;
}

static void keyed_malformed(void)
{
    keyed_seeded();
    keyed.last_reseed = 1;
}

static void keyed_blank(void)
{
    keyed_seeded();
    memset(seed, 0xff, sizeof seed);
}

static void keyed_fresh(void)
{
    keyed_seeded();
    keyed = fortuna_keyed_new(data);
}

static void keyed_at_end(void)
{
    keyed_seeded();
    keyed.step = UINT64_MAX;
}

static void keyed_rising(void)
{
    keyed_seeded();
    for (uint32_t i = 0; i < RECORDS; i++)
        quotas[i].source = SOURCE + 1 - RECORDS + i;
}

static void keyed_no_records(void)
{
    keyed_seeded();
    records = 0;
}

static void keyed_overspent(void)
{
    keyed_seeded();
    quotas[RECORDS - 1].allowance = 0;
}

static void keyed_spent(void)
{
    keyed_seeded();
    quotas[RECORDS - 1].allowance = 3;
}

/* ---- the calls */

enum { CLOCK = 9999 };

static void nothing(void) {}
static void sha256(void) { fortuna_sha256(data, 1000, out); }
static void sha_d256(void) { fortuna_sha_d256(data, 1000, out); }
static void expand(void) { expanded = fortuna_aes256_expand(data); }
static void block(void) { fortuna_aes256_block(expanded, out); }
static void bytewise_expand(void) { bytewise_expanded = fortuna_aes256_bytewise_expand(data); }
static void bytewise_block(void) { fortuna_aes256_bytewise_block(bytewise_expanded, out); }
static void generator_new(void) { generator = fortuna_generator_new(); }
static void generator_reseed(void) { fortuna_generator_reseed_at(&generator, data, 1000); }
static void generator_blocks(void) { fortuna_generator_blocks_at(&generator, out, 1000); }
static void generator_request(void) { fortuna_generator_request_at(&generator, out, 1000); }
static void new(void) { state = fortuna_new(); }
static void request(void) { fortuna_request(&state, CLOCK, out, 1000); }
static void update(void) { fortuna_update(&state, CLOCK, seed, sizeof seed); }
static void write_seed(void) { fortuna_write(&state, CLOCK, seed, sizeof seed); }
static void draw(void) { fortuna_random_below(&state, CLOCK, 900, 64); }
static void shuffle(void) { fortuna_shuffle(&state, CLOCK, list, LIST); }
static void metered_request(void) { fortuna_metered_request(&state, quotas, records, CLOCK, out, 1000); }
static void metered_update(void) { fortuna_metered_update(&state, quotas, records, CLOCK, seed, sizeof seed); }
static void metered_write(void) { fortuna_metered_write(&state, quotas, records, CLOCK, seed, sizeof seed); }
static void metered_draw(void) { fortuna_metered_random_below(&state, quotas, records, CLOCK, 900, 64); }
static void metered_shuffle(void) { fortuna_metered_shuffle(&state, quotas, records, CLOCK, list, LIST); }
static void health_new(void) { health = fortuna_health_new(); }
static void health_test(void) { fortuna_health_test(&health, samples, SAMPLES, 31, 325); }
static void health_cutoff(void) { fortuna_health_test(&health, samples, SAMPLES, 31, 513); }
static void drbg_new(void) { drbg = fortuna_ctr_drbg_new(); }
static void drbg_start(void) { fortuna_ctr_drbg_instantiate(&drbg, data, ENTROPY, seed, 0); }
static void drbg_start_named(void) { fortuna_ctr_drbg_instantiate(&drbg, data, ENTROPY, seed, ENTROPY); }
static void drbg_start_short(void) { fortuna_ctr_drbg_instantiate(&drbg, data, ENTROPY - 1, seed, 0); }
static void drbg_reseed(void) { fortuna_ctr_drbg_reseed(&drbg, data, ENTROPY, seed, 0); }
static void drbg_reseed_with(void) { fortuna_ctr_drbg_reseed(&drbg, data, ENTROPY, seed, ENTROPY); }
static void drbg_none(void) { fortuna_ctr_drbg_generate(&drbg, out, 0, seed, 0); }
static void drbg_none_with(void) { fortuna_ctr_drbg_generate(&drbg, out, 0, seed, ENTROPY); }
static void drbg_block(void) { fortuna_ctr_drbg_generate(&drbg, out, 16, seed, 0); }
static void drbg_block_with(void) { fortuna_ctr_drbg_generate(&drbg, out, 16, seed, ENTROPY); }
static void drbg_most(void) { fortuna_ctr_drbg_generate(&drbg, out, MOST, seed, 0); }
static void drbg_most_with(void) { fortuna_ctr_drbg_generate(&drbg, out, MOST, seed, ENTROPY); }
static void drbg_above(void) { fortuna_ctr_drbg_generate(&drbg, out, MOST + 1, seed, 0); }
static void keyed_new(void) { keyed = fortuna_keyed_new(data); }
static void keyed_input(void) { fortuna_keyed_input(data, 12345); }
static void keyed_output(void) { fortuna_keyed_output((uint64_t)1 << 63); }
static void keyed_request(void) { fortuna_keyed_request(&keyed, out, 1000); }
static void keyed_update(void) { fortuna_keyed_update(&keyed, seed, sizeof seed); }
static void keyed_write(void) { fortuna_keyed_write(&keyed, seed, sizeof seed); }
static void keyed_metered_request(void) { fortuna_keyed_metered_request(&keyed, quotas, records, out, 1000); }
static void keyed_metered_update(void) { fortuna_keyed_metered_update(&keyed, quotas, records, seed, sizeof seed); }
static void keyed_metered_write(void) { fortuna_keyed_metered_write(&keyed, quotas, records, seed, sizeof seed); }
static void run_log(void) { fortuna_log((const uint8_t *)lines, line_count, out, sizeof out); }

/* Events of several lengths, so that the pool's tail is filled, passed over and met exactly. */
static void event(void)
{
    for (size_t length = 0; length <= 33; length++)
        fortuna_event(&state, SOURCE, 3, data, length);
}

static void metered_event(void)
{
    for (size_t length = 0; length <= 33; length++)
        fortuna_metered_event(&state, quotas, records, SOURCE, 3, data, length);
}

static void keyed_event(void)
{
    for (size_t length = 0; length <= 33; length++)
        fortuna_keyed_event(&keyed, SOURCE, data, length);
}

static void keyed_metered_event(void)
{
    for (size_t length = 0; length <= 33; length++)
        fortuna_keyed_metered_event(&keyed, quotas, records, SOURCE, data, length);
}

static void add_line(const char *start, int count, int byte)
{
    line_count += (size_t)sprintf(lines + line_count, "%s", start);
    for (int i = 0; i < count; i++)
        line_count += (size_t)sprintf(lines + line_count, "%02X", (byte + i) % 256);
    lines[line_count++] = '\n';
}

/* A log with each kind of line, refused ones too, and the longest answers. */
static void write_log(void)
{
    static const char *const refused[] = {"", "0G", "0107", "06", "010720AA", "010703", "0300000000", "02000000000010"};
    line_count = 0;
    for (size_t i = 0; i < sizeof refused / sizeof *refused; i++)
        add_line(refused[i], 0, 0);
    add_line("0300000000", SEED, 1);
    for (int turn = 0; turn < 4; turn++) {
        for (int i = 0; i < 4; i++) {
            add_line("05038400", 32, i);
            add_line("0107000A", 16, i);
        }
        add_line(turn % 2 ? "0200100000FFFF" : "02002000000000", 0, 0);
        add_line("0400300000", 0, 0);
        add_line("0300400000", SEED, turn);
        add_line("05", 300, turn);
    }
}

/* A log to convert, with each kind of frame, and the shortest and the longest events of both kinds. The last line has
   no line feed. */
static void write_frames(void)
{
    line_count = 0;
    add_line("010703", 0, 0);
    add_line("05000703", 0, 0);
    add_line("010703", LONGEST, 1);
    add_line("05000703", LONGEST, 2);
    add_line("0200100000FFFF", 0, 0);
    add_line("0300000000", SEED, 3);
    add_line("0400300000", 0, 0);
    add_line("010703", 32, 4);
    line_count--;
}

/* The same with a second line that is no frame, and with one whose source frame 01 can't carry. */
static void write_no_frame(void)
{
    write_frames();
    lines[sizeof "010703"] = 'G';
}

static void write_large_source(void)
{
    write_frames();
    lines[sizeof "010703" + 2] = 'F';
}

static void convert(bool wide, size_t room, uint32_t number, size_t line)
{
    const fortuna_conversion c = fortuna_convert((const uint8_t *)lines, line_count, wide, out, room);
    require(c.number == number && c.line == line, "fortuna_convert", "does not answer as it should");
}

static void widen(void) { convert(true, sizeof out, FORTUNA_DONE, 0); }
static void narrow(void) { convert(false, sizeof out, FORTUNA_DONE, 0); }
static void widen_no_frame(void) { convert(true, sizeof out, FORTUNA_NO_FRAME, 2); }
static void narrow_no_frame(void) { convert(false, sizeof out, FORTUNA_NO_FRAME, 2); }
static void narrow_large(void) { convert(false, sizeof out, FORTUNA_LARGE_SOURCE, 2); }
static void widen_one(void) { convert(true, sizeof "05000703", FORTUNA_NO_ROOM, 2); }
static void narrow_one(void) { convert(false, sizeof "010703", FORTUNA_NO_ROOM, 2); }

/* A pool's string: an event with the fewest bytes of data, and at SECOND one with the most. */
enum { SECOND = 4, END = 39 };
static const uint8_t string[END] = {[2] = 1, [SECOND + 2] = 32};

static void look(size_t place, size_t next, uint32_t number)
{
    const fortuna_entry e = fortuna_entry_at(string, END, place);
    require(e.number == number && e.next == next, "fortuna_entry_at", "does not answer as it should");
}

static void look_at_first(void) { look(0, SECOND, FORTUNA_DONE); }
static void look_at_second(void) { look(SECOND, END, FORTUNA_DONE); }
static void look_at_end(void) { look(END, END, FORTUNA_DONE); }
static void look_between(void) { look(2, 2, FORTUNA_NO_EVENT); }
static void look_past_end(void) { look(SIZE_MAX, SIZE_MAX, FORTUNA_NO_EVENT); }

/* What a call on a state comes to. The others are not looked at. */
enum outcome { APART, ACCEPTED, REFUSED };

/* The cases of a call that draws with a list of quotas. */
#define METERED(name, call) \
    {name, malformed, call, REFUSED}, {name, overspent, call, REFUSED}, \
    {name, no_records, call, ACCEPTED}, {name, due_no_records, call, ACCEPTED}, \
    {name, rising, call, ACCEPTED}, {name, seeded, call, ACCEPTED}, {name, due, call, ACCEPTED}

/* The same on the keyed scheduler, which draws nothing from its pools. */
#define KEYED_METERED(name, call) \
    {name, keyed_malformed, call, REFUSED}, {name, keyed_overspent, call, REFUSED}, \
    {name, keyed_no_records, call, ACCEPTED}, {name, keyed_rising, call, ACCEPTED}, \
    {name, keyed_seeded, call, ACCEPTED}, {name, keyed_at_end, call, ACCEPTED}

static const struct {
    const char *name;
    void (*prepare)(void), (*call)(void);
    enum outcome outcome;
} cases[] = {
    {"fortuna_sha256", seeded, sha256, APART},
    {"fortuna_sha_d256", seeded, sha_d256, APART},
    {"fortuna_aes256_expand", seeded, expand, APART},
    {"fortuna_aes256_block", seeded, block, APART},
    {"fortuna_aes256_bytewise_expand", seeded, bytewise_expand, APART},
    {"fortuna_aes256_bytewise_block", seeded, bytewise_block, APART},
    {"fortuna_generator_new", seeded, generator_new, APART},
    {"fortuna_generator_reseed", seeded, generator_reseed, APART},
    {"fortuna_generator_blocks", seeded, generator_blocks, APART},
    {"fortuna_generator_request", seeded, generator_request, APART},
    {"fortuna_new", seeded, new, APART},
    {"fortuna_event", malformed, event, REFUSED},
    {"fortuna_event", seeded, event, ACCEPTED},
    {"fortuna_request", malformed, request, REFUSED},
    {"fortuna_request", fresh, request, REFUSED},
    {"fortuna_request", seeded, request, ACCEPTED},
    {"fortuna_request", due, request, ACCEPTED},
    {"fortuna_update", malformed, update, REFUSED},
    {"fortuna_update", blank, update, REFUSED},
    {"fortuna_update", seeded, update, ACCEPTED},
    {"fortuna_update", due, update, ACCEPTED},
    {"fortuna_write", malformed, write_seed, REFUSED},
    {"fortuna_write", seeded, write_seed, ACCEPTED},
    {"fortuna_write", due, write_seed, ACCEPTED},
    {"fortuna_random_below", malformed, draw, REFUSED},
    {"fortuna_random_below", seeded, draw, ACCEPTED},
    {"fortuna_random_below", due, draw, ACCEPTED},
    {"fortuna_shuffle", malformed, shuffle, REFUSED},
    {"fortuna_shuffle", seeded, shuffle, ACCEPTED},
    {"fortuna_shuffle", due, shuffle, ACCEPTED},
    {"fortuna_metered_event", malformed, metered_event, REFUSED},
    {"fortuna_metered_event", no_records, metered_event, REFUSED},
    {"fortuna_metered_event", overspent, metered_event, REFUSED},
    {"fortuna_metered_event", spent, metered_event, REFUSED},
    {"fortuna_metered_event", rising, metered_event, ACCEPTED},
    {"fortuna_metered_event", seeded, metered_event, ACCEPTED},
    METERED("fortuna_metered_request", metered_request),
    {"fortuna_metered_request", fresh, metered_request, REFUSED},
    METERED("fortuna_metered_update", metered_update),
    {"fortuna_metered_update", blank, metered_update, REFUSED},
    METERED("fortuna_metered_write", metered_write),
    METERED("fortuna_metered_random_below", metered_draw),
    METERED("fortuna_metered_shuffle", metered_shuffle),
    {"fortuna_keyed_new", keyed_seeded, keyed_new, APART},
    {"fortuna_keyed_input", nothing, keyed_input, APART},
    {"fortuna_keyed_output", nothing, keyed_output, APART},
    {"fortuna_keyed_event", keyed_malformed, keyed_event, REFUSED},
    {"fortuna_keyed_event", keyed_at_end, keyed_event, REFUSED},
    {"fortuna_keyed_event", keyed_seeded, keyed_event, ACCEPTED},
    {"fortuna_keyed_event", keyed_fresh, keyed_event, ACCEPTED},
    {"fortuna_keyed_request", keyed_malformed, keyed_request, REFUSED},
    {"fortuna_keyed_request", keyed_fresh, keyed_request, REFUSED},
    {"fortuna_keyed_request", keyed_seeded, keyed_request, ACCEPTED},
    {"fortuna_keyed_update", keyed_malformed, keyed_update, REFUSED},
    {"fortuna_keyed_update", keyed_blank, keyed_update, REFUSED},
    {"fortuna_keyed_update", keyed_seeded, keyed_update, ACCEPTED},
    {"fortuna_keyed_update", keyed_fresh, keyed_update, ACCEPTED},
    {"fortuna_keyed_write", keyed_malformed, keyed_write, REFUSED},
    {"fortuna_keyed_write", keyed_seeded, keyed_write, ACCEPTED},
    {"fortuna_keyed_metered_event", keyed_malformed, keyed_metered_event, REFUSED},
    {"fortuna_keyed_metered_event", keyed_no_records, keyed_metered_event, REFUSED},
    {"fortuna_keyed_metered_event", keyed_overspent, keyed_metered_event, REFUSED},
    {"fortuna_keyed_metered_event", keyed_spent, keyed_metered_event, REFUSED},
    {"fortuna_keyed_metered_event", keyed_at_end, keyed_metered_event, REFUSED},
    {"fortuna_keyed_metered_event", keyed_rising, keyed_metered_event, ACCEPTED},
    {"fortuna_keyed_metered_event", keyed_seeded, keyed_metered_event, ACCEPTED},
    KEYED_METERED("fortuna_keyed_metered_request", keyed_metered_request),
    {"fortuna_keyed_metered_request", keyed_fresh, keyed_metered_request, REFUSED},
    KEYED_METERED("fortuna_keyed_metered_update", keyed_metered_update),
    {"fortuna_keyed_metered_update", keyed_blank, keyed_metered_update, REFUSED},
    KEYED_METERED("fortuna_keyed_metered_write", keyed_metered_write),
    {"fortuna_log", write_log, run_log, APART},
    {"fortuna_convert", write_frames, widen, APART},
    {"fortuna_convert", write_frames, narrow, APART},
    {"fortuna_convert", write_frames, widen_one, APART},
    {"fortuna_convert", write_frames, narrow_one, APART},
    {"fortuna_convert", write_no_frame, widen_no_frame, APART},
    {"fortuna_convert", write_no_frame, narrow_no_frame, APART},
    {"fortuna_convert", write_large_source, narrow_large, APART},
    {"fortuna_entry_at", nothing, look_at_first, APART},
    {"fortuna_entry_at", nothing, look_at_second, APART},
    {"fortuna_entry_at", nothing, look_at_end, APART},
    {"fortuna_entry_at", nothing, look_between, APART},
    {"fortuna_entry_at", nothing, look_past_end, APART},
    {"fortuna_health_new", seeded, health_new, APART},
    {"fortuna_health_test", varied, health_test, APART},
    {"fortuna_health_test", varied, health_cutoff, APART},
    {"fortuna_health_test", stuck, health_test, APART},
    {"fortuna_health_test", malformed_health, health_test, APART},
    {"fortuna_ctr_drbg_new", drbg_seeded, drbg_new, APART},
    {"fortuna_ctr_drbg_instantiate", drbg_seeded, drbg_start_short, REFUSED},
    {"fortuna_ctr_drbg_instantiate", drbg_seeded, drbg_start, ACCEPTED},
    {"fortuna_ctr_drbg_instantiate", drbg_unseeded, drbg_start_named, ACCEPTED},
    {"fortuna_ctr_drbg_reseed", drbg_unseeded, drbg_reseed, REFUSED},
    {"fortuna_ctr_drbg_reseed", drbg_seeded, drbg_reseed, ACCEPTED},
    {"fortuna_ctr_drbg_reseed", drbg_seeded, drbg_reseed_with, ACCEPTED},
    {"fortuna_ctr_drbg_generate", drbg_unseeded, drbg_block, REFUSED},
    {"fortuna_ctr_drbg_generate", drbg_seeded, drbg_above, REFUSED},
    {"fortuna_ctr_drbg_generate", drbg_seeded, drbg_none, ACCEPTED},
    {"fortuna_ctr_drbg_generate", drbg_seeded, drbg_none_with, ACCEPTED},
    {"fortuna_ctr_drbg_generate", drbg_seeded, drbg_block, ACCEPTED},
    {"fortuna_ctr_drbg_generate", drbg_seeded, drbg_block_with, ACCEPTED},
    {"fortuna_ctr_drbg_generate", drbg_seeded, drbg_most, ACCEPTED},
    {"fortuna_ctr_drbg_generate", drbg_seeded, drbg_most_with, ACCEPTED},
};
enum { CASES = sizeof cases / sizeof *cases };

/* ---- measuring */

static void *on_painted_stack(void *call)
{
    (*(void (**)(void))call)();
    return NULL;
}

/* How many bytes of the stack a call changed, the thread's own among them. */
static size_t used_by(void (*call)(void))
{
    pthread_t thread;
    pthread_attr_t attributes;
    memset(stack, PAINT, STACK);
    if (pthread_attr_init(&attributes) || pthread_attr_setstack(&attributes, stack, STACK)
        || pthread_create(&thread, &attributes, on_painted_stack, &call) || pthread_join(thread, NULL))
        abort();
    size_t untouched = 0;
    while (untouched < STACK && stack[untouched] == PAINT)
        untouched++;
    return STACK - untouched;
}

static size_t larger(size_t a, size_t b)
{
    return a > b ? a : b;
}

/* How often secret bytes stand on the stack. */
static size_t copies_of(const uint8_t *secret, size_t size)
{
    static const uint8_t none[32];
    size_t found = 0;
    if (!memcmp(secret, none, size))
        return 0; /* unseeded */
    for (const uint8_t *at = stack; (at = memmem(at, (size_t)(stack + STACK - at), secret, size)); at++)
        found++;
    return found;
}

/* What a call works on, with its size: how much of it changes exactly if the call is accepted, and where its key
   stands; where it has another secret, V of CTR_DRBG or the scheduler key, where that one stands and its size. */
typedef struct {
    const void *at;
    size_t whole, size, key, other, other_size;
} lent;

enum { KEY_SIZE = 32 };

static lent lent_to(const char *name)
{
    if (!strncmp(name, "fortuna_ctr_drbg_", 17))
        return (lent){.at = &drbg, .whole = sizeof drbg, .size = sizeof drbg, .key = offsetof(fortuna_ctr_drbg, key),
                      .other = offsetof(fortuna_ctr_drbg, v), .other_size = sizeof drbg.v};
    if (!strncmp(name, "fortuna_keyed_", 14))
        return (lent){.at = &keyed, .whole = sizeof keyed, .size = offsetof(fortuna_keyed, last_reseed),
                      .key = offsetof(fortuna_keyed, generator.key),
                      .other = offsetof(fortuna_keyed, scheduler_key), .other_size = sizeof keyed.scheduler_key};
    return (lent){.at = &state, .whole = sizeof state, .size = offsetof(fortuna_state, last_reseed),
                  .key = offsetof(fortuna_state, generator.key)};
}

/* The most copies that a case left: of the key before the call and after it, and of the other secret. */
typedef struct {
    size_t key[2], other[2];
} copies;

static void count_copies(copies *most, const lent *on, const uint8_t *old)
{
    const uint8_t *const both[2] = {old, on->at};
    for (int i = 0; i < 2; i++) {
        most->key[i] = larger(most->key[i], copies_of(both[i] + on->key, KEY_SIZE));
        if (on->other_size > 0)
            most->other[i] = larger(most->other[i], copies_of(both[i] + on->other, on->other_size));
    }
}

static void check_acceptance(int i, const lent *on, const uint8_t *old)
{
    const bool accepted = cases[i].outcome == ACCEPTED;
    const bool changed = memcmp(old, on->at, on->size) != 0;
    if (cases[i].outcome != APART)
        require(accepted == changed, cases[i].name, accepted ? "is refused" : "is accepted where it should be refused");
}

static void print_line(const char *name, size_t most, const lent *on, const copies *left)
{
    printf("%s %zu", name, most);
    if (on)
        printf(" %zu %zu", left->key[0], left->key[1]);
    if (on && on->other_size > 0)
        printf(" %zu %zu", left->other[0], left->other[1]);
    printf("\n");
}

int main(void)
{
    static uint8_t old[sizeof(fortuna_keyed)]; /* the largest of the states */
    stack = aligned_alloc(4096, STACK);
    const size_t base = used_by(nothing);
    for (int i = 0; i < CASES;) {
        const char *name = cases[i].name;
        const lent on = lent_to(name);
        const bool on_state = cases[i].outcome != APART;
        size_t most = 0;
        copies left = {0};
        for (; i < CASES && !strcmp(cases[i].name, name); i++) {
            cases[i].prepare();
            memcpy(old, on.at, on.whole);
            most = larger(most, used_by(cases[i].call) - base);
            check_acceptance(i, &on, old);
            count_copies(&left, &on, old);
        }
        print_line(name, most, on_state ? &on : NULL, &left);
    }
    return 0;
}
