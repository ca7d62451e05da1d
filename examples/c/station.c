/* A digitiser from start to stop: the stored seed goes in and its successor is stored before any key is drawn, noise is
   tested and goes in as events, link keys, a radio slot and the order of a polling list come out. One source gets
   stuck: the health tests tell before its stuck readings become an event. Another digitiser is fresh from the works:
   its page of flash memory was never written, so it waits for noise before it has a seed. At a later power-up a
   tiltmeter floods: a list of quotas turns back what is too much, and the seismometer goes on. At another one the
   digitiser is a permanent station, whose network wants keys from CTR_DRBG. At the last two its pools are chosen by
   key, since its noise comes in bursts that follow the round of pools. A log of calls is run, logs are converted from
   frame 01 to 05 and back, and an analyst lists the events behind a pool. Noise, clock, keys that are kept and flash
   pages are stand-ins, so each run prints the same.

   One call at a time on a state: here the task that runs main owns the state and makes every call. Interrupts only put
   noise into a ring buffer, and the owner takes it from there between its other calls. */
#include "fortuna.h"

#include <stdatomic.h>
#include <stdio.h>
#include <stdlib.h>
#include <string.h>

enum { SOURCES = 3, TURNS = 64, READINGS = 32, POOLS = 32, SEED = 64, KEY = 32, SLOTS = 100, TRIES = 64, STATIONS = 8 };
enum { RING = 16 }; /* a power of two, so that the counts below may wrap */

/* The cutoffs of the health tests for readings with 1 bit of entropy each, by estimate, and false alarms at a rate of
   2^-30: docs/HEALTH.md has these and others. A turn has more readings than the first, so that a source which is stuck
   from a turn's start on is told in that turn. */
enum { REPETITION = 31, PROPORTION = 325 };

/* The events that pool 0 gets before the first seed of all: 288 readings, which by that estimate have more bits than
   the key's 256. The library asks for 64 bytes and can't know what they are worth. */
enum { FIRST_EVENTS = 9 };

/* A noise source: its number, which may be any up to 65,535, the state of its health tests, and whether it failed. Each
   source has a test state of its own. */
typedef struct {
    uint32_t number;
    fortuna_health health;
    bool left_out;
} source;

static source sources[SOURCES] = {{.number = 1}, {.number = 2}, {.number = 900}};

/* Stands in for the page of flash memory that keeps the seed, and for the copy of it in memory that calls work on. */
static uint8_t flash[SEED] = "a seed from the workshop, other bytes for each digitiser";

/* What a refusal says. */
static const struct {
    uint32_t number;
    const char *text;
} reasons[] = {
    {FORTUNA_BAD_SOURCE, "no such source"},
    {FORTUNA_BAD_POOL, "no such pool"},
    {FORTUNA_BAD_DATA, "no data, or more than 32 bytes"},
    {FORTUNA_REQUEST_TOO_LONG, "more than 1,048,576 bytes asked for, or 65,536 of CTR_DRBG"},
    {FORTUNA_BAD_SEED, "a seed that is not 64 bytes"},
    {FORTUNA_NO_FRAME, "a line that is no frame"},
    {FORTUNA_TOO_LONG, "a message above 2^61 - 65 bytes"},
    {FORTUNA_SLOT_RANGE, "a bound outside 1 to 2^32, or a list that is too long or repeats a number"},
    {FORTUNA_TRY_RANGE, "tries outside 1 to 64"},
    {FORTUNA_BLANK_SEED, "a blank seed: 64 equal bytes"},
    {FORTUNA_BAD_QUOTAS, "a list above 64 quotas, with a repeated source, or with more spent than allowed"},
    {FORTUNA_NOT_LISTED, "a source with no quota"},
    {FORTUNA_OVER_ALLOWANCE, "more than the source's allowance"},
    {FORTUNA_MALFORMED, "a malformed state"},
    {FORTUNA_POOL_FULL, "a full pool"},
    {FORTUNA_UNSEEDED, "no seed and too little noise"},
    {FORTUNA_STEPS_SPENT, "all 2^64 - 1 steps are made"},
    {FORTUNA_COUNTER_SPENT, "the counter is spent"},
    {FORTUNA_NONE_DRAWN, "no try gave a value"},
    {FORTUNA_CUTOFF_RANGE, "a cutoff outside 2 to 512"},
    {FORTUNA_MALFORMED_HEALTH, "a malformed test state"},
    {FORTUNA_ENTROPY_LENGTH, "entropy input that is not 48 bytes"},
    {FORTUNA_INPUT_TOO_LONG, "more than 48 bytes of another input"},
    {FORTUNA_SEEDING_NEEDED, "never seeded, or 2^48 requests since"},
    {FORTUNA_LARGE_SOURCE, "a source above 255, which frame 01 can't carry"},
    {FORTUNA_NO_EVENT, "no whole event starts there, or it is past the end"},
    {FORTUNA_NO_ROOM, "no room for the converted line"},
};

static const char *reason(uint32_t number)
{
    for (size_t i = 0; i < sizeof reasons / sizeof reasons[0]; i++)
        if (reasons[i].number == number)
            return reasons[i].text;
    return "a number that these calls don't have";
}

/* For calls that must be taken: a device would go into its fault state here. */
static void must(const char *what, uint32_t number)
{
    if (number == FORTUNA_DONE)
        return;
    printf("%s: refused, %u (%s)\n", what, number, reason(number));
    exit(1);
}

static void print_bytes(const uint8_t *bytes, size_t length)
{
    for (size_t i = 0; i < length; i++)
        printf("%02x", bytes[i]);
    printf("\n");
}

/* D tells by which edition of the book the library goes: with that of 2003 this line would begin with 4f8b42c2. */
static void show_edition(void)
{
    uint8_t digest[32];
    must("D", fortuna_sha_d256((const uint8_t *)"abc", 3, digest));
    printf("D of abc: ");
    print_bytes(digest, sizeof digest);
}

/* The known answer of FIPS 197, C.3, from both ciphers, as firmware may ask for it at each start: by tables, which is
   the faster and what the station itself uses, and byte by byte. */
static void show_ciphers(void)
{
    uint8_t key[32], by_tables[16], bytewise[16];
    for (size_t i = 0; i < sizeof key; i++)
        key[i] = (uint8_t)i;
    for (size_t i = 0; i < sizeof by_tables; i++)
        by_tables[i] = bytewise[i] = (uint8_t)(0x11 * i);
    fortuna_aes256_block(fortuna_aes256_expand(key), by_tables);
    fortuna_aes256_bytewise_block(fortuna_aes256_bytewise_expand(key), bytewise);
    printf("AES-256 by tables: ");
    print_bytes(by_tables, sizeof by_tables);
    printf("AES-256 byte by byte: ");
    print_bytes(bytewise, sizeof bytewise);
}

/* Stands in for a sensor, of whose readings the low 8 bits are used. Source 2 gets stuck: it repeats one reading from
   turn 40 on. */
static uint32_t reading(uint32_t number, uint32_t turn, uint32_t i)
{
    if (number == 2 && turn >= 40)
        return 200;
    return (89 * number + 31 * turn + 7 * i) % 256;
}

/* Noise on its way from the interrupt to the owner of the state. The interrupt alone moves written, and the owner alone
   moves taken, so neither waits for the other. Interrupts that can interrupt each other need a ring each. */
typedef struct {
    source *from;
    uint32_t turn;
    uint32_t pool;
    uint32_t readings[READINGS];
} noise;

static noise ring[RING];
static atomic_uint written, taken;

/* Stands in for an interrupt. It leaves the state alone: while a call of the owner runs, an event given here would be
   answered FORTUNA_DONE and lost. Noise that finds the ring full is dropped; more will come. */
static void interrupt(source *from, uint32_t turn, uint32_t pool)
{
    const unsigned at = atomic_load_explicit(&written, memory_order_relaxed);
    if (at - atomic_load_explicit(&taken, memory_order_acquire) == RING)
        return;
    noise *n = &ring[at % RING];
    n->from = from;
    n->turn = turn;
    n->pool = pool;
    for (uint32_t i = 0; i < READINGS; i++)
        n->readings[i] = reading(from->number, turn, i);
    atomic_store_explicit(&written, at + 1, memory_order_release);
}

static const char *failed_tests(fortuna_health_answer a)
{
    if (a.repetition && a.proportion)
        return "both tests";
    return a.repetition ? "the repetition count test" : "the adaptive proportion test";
}

/* Whether the readings may become an event. A failing sample is no refusal, so the number alone would not tell. None of
   the readings that it came with is used, nor any later ones: the source is left out until somebody has seen to it. */
static bool healthy(const noise *n)
{
    source *s = n->from;
    if (s->left_out)
        return false;
    fortuna_health_answer a = fortuna_health_test(&s->health, n->readings, READINGS, REPETITION, PROPORTION);
    must("health test", a.number);
    if (fortuna_health_passed(a))
        return true;
    printf("source %u, turn %u: sample %zu fails %s, source left out\n", s->number, n->turn, a.place, failed_tests(a));
    s->left_out = true;
    return false;
}

/* What goes in is what was tested: a byte for each reading. */
static void give_event(fortuna_state *f, const noise *n)
{
    uint8_t data[READINGS];
    for (size_t i = 0; i < READINGS; i++)
        data[i] = (uint8_t)n->readings[i];
    must("event", fortuna_event(f, n->from->number, n->pool, data, sizeof data));
}

/* The owner tests the noise that waits, gives what passes to the state, and returns how many events that were. */
static int take_noise(fortuna_state *f)
{
    int count = 0;
    unsigned at = atomic_load_explicit(&taken, memory_order_relaxed);
    while (at != atomic_load_explicit(&written, memory_order_acquire)) {
        const noise *n = &ring[at % RING];
        if (healthy(n)) {
            give_event(f, n);
            count++;
        }
        atomic_store_explicit(&taken, ++at, memory_order_release);
    }
    return count;
}

/* At a power-up the tests begin anew. */
static void start_sources(void)
{
    for (size_t i = 0; i < SOURCES; i++) {
        sources[i].health = fortuna_health_new();
        sources[i].left_out = false;
    }
}

/* Each source gives readings for a pool, once. Returns how many events came of it. */
static int take_turn(fortuna_state *f, uint32_t turn, uint32_t pool)
{
    for (size_t i = 0; i < SOURCES; i++)
        interrupt(&sources[i], turn, pool);
    return take_noise(f);
}

/* Each source goes round the pools by itself. */
static void gather_noise(fortuna_state *f)
{
    int count = 0;
    for (uint32_t turn = 0; turn < TURNS; turn++)
        count += take_turn(f, turn, turn % POOLS);
    printf("%d events taken\n", count);
}

static void show_key(uint32_t clock, fortuna_answer a, const uint8_t key[KEY])
{
    if (a.number != FORTUNA_DONE) {
        printf("key at %u ms: refused, %u (%s)\n", clock, a.number, reason(a.number));
        return;
    }
    printf("key at %u ms, pools emptied %u: ", clock, a.emptied);
    print_bytes(key, KEY);
}

/* A key, or why there is none: a caller can wait for noise and ask again. */
static void draw_key(fortuna_state *f, uint32_t clock)
{
    uint8_t key[KEY];
    fortuna_answer a = fortuna_request(f, clock, key, sizeof key);
    show_key(clock, a, key);
}

/* Stands in for storing the page in flash memory. */
static void store(const char *what, const uint8_t page[SEED])
{
    printf("%s: ", what);
    print_bytes(page, SEED);
}

/* A seed for the next start. Whatever the page holds is written over, and it may be blank. */
static void write_seed(fortuna_state *f, uint32_t clock, uint8_t page[SEED])
{
    must("seed write", fortuna_write(f, clock, page, SEED).number);
    store("seed for the next start", page);
}

/* Where the page is blank: keys and seed writes are refused until noise has come. The first pool reseed takes pool 0
   alone, so the first noise goes there. With no source that passes its tests it waits here: no noise, no key. */
static void seed_from_noise(fortuna_state *f, uint32_t clock, uint8_t page[SEED])
{
    int count = 0;
    draw_key(f, clock); /* to show that it is refused */
    for (uint32_t turn = 0; count < FIRST_EVENTS; turn++)
        count += take_turn(f, turn, 0);
    printf("%d events taken\n", count);
    write_seed(f, clock + 500, page);
}

/* A power-up, from the page as it was read. After it the station is seeded, and the page that the next one starts from
   is stored: both before any key is drawn. */
static void power_up(fortuna_state *f, uint32_t clock, uint8_t page[SEED])
{
    start_sources();
    const uint32_t number = fortuna_update(f, clock, page, SEED).number;
    switch (number) {
    case FORTUNA_DONE: /* the page holds the successor of its seed */
        store("seed updated", page);
        break;
    case FORTUNA_BLANK_SEED: /* the page was never written, and is as it was */
        printf("seed update: refused, %u (%s)\n", number, reason(number));
        seed_from_noise(f, clock, page);
        break;
    default:
        must("seed update", number);
    }
}

/* A pool that there is not: the call says so, and the state stays as it was. */
static void misplace_event(fortuna_state *f)
{
    const uint8_t data[READINGS] = {0};
    uint32_t number = fortuna_event(f, sources[0].number, POOLS, data, sizeof data);
    if (number != FORTUNA_DONE)
        printf("event for pool %d: refused, %u (%s)\n", POOLS, number, reason(number));
}

/* With a cutoff of 1 every sample would fail: the call says that there is none, and the test state stays as it was. */
static void misjudge_cutoff(void)
{
    const uint32_t readings[READINGS] = {0};
    fortuna_health h = fortuna_health_new();
    fortuna_health_answer a = fortuna_health_test(&h, readings, READINGS, 1, PROPORTION);
    if (!fortuna_health_passed(a))
        printf("cutoff 1: refused, %u (%s)\n", a.number, reason(a.number));
}

/* A radio slot, or why there is none: after FORTUNA_NONE_DRAWN a caller can draw again, from the state that is left. */
static void show_slot(uint32_t clock, fortuna_draw d)
{
    if (d.number != FORTUNA_DONE) {
        printf("slot at %u ms: refused, %u (%s)\n", clock, d.number, reason(d.number));
        return;
    }
    printf("slot at %u ms, pools emptied %u: %u\n", clock, d.emptied, (unsigned)d.value);
}

static void draw_slot(fortuna_state *f, uint32_t clock)
{
    show_slot(clock, fortuna_random_below(f, clock, SLOTS, TRIES));
}

static void number_stations(uint16_t list[STATIONS])
{
    for (uint16_t i = 0; i < STATIONS; i++)
        list[i] = (uint16_t)(i + 1);
}

static void show_order(const uint16_t list[STATIONS])
{
    printf("polling list:");
    for (size_t i = 0; i < STATIONS; i++)
        printf(" %u", list[i]);
    printf("\n");
}

/* The order in which a hub polls its stations. */
static void order_stations(fortuna_state *f, uint32_t clock)
{
    uint16_t list[STATIONS];
    number_stations(list);
    must("shuffle", fortuna_shuffle(f, clock, list, STATIONS).number);
    show_order(list);
}

/* How stale the key is, for whoever services the digitiser. No call is needed: the number is part of the state. */
static void show_staleness(const fortuna_state *f)
{
    printf("requests on the key since the last pool reseed: %u\n", f->key_requests);
}

/* A stored log of calls, run in one call from a fresh station: an event of source 7, one of source 900, a request, and
   a line that is no frame. */
static void run_log(void)
{
    static const uint8_t log[] = "010700A1B2\n050384003C\n02000000640010\nFF\n";
    uint8_t answers[64];
    size_t stored = fortuna_log(log, sizeof log - 1, answers, sizeof answers);
    printf("a log's answers:\n%.*s", (int)stored, (const char *)answers);
}

static void show_log(const char *what, const uint8_t *log, size_t length)
{
    printf("%s:\n%.*s", what, (int)length, (const char *)log);
}

/* A log from the archive, for a reader that knows frame 05 alone, and back: the same log. The buffers have room that is
   always enough: 4/3 of the log's length for 05, the log's length for 01. */
static void convert_archive(void)
{
    static const uint8_t log[] = "010700A1B2\n02000000640010\n01FF1F3C\n";
    enum { LENGTH = sizeof log - 1 };
    uint8_t wide[LENGTH + (LENGTH + 2) / 3], narrow[sizeof wide];
    fortuna_conversion there = fortuna_convert(log, LENGTH, true, wide, sizeof wide);
    must("conversion to frame 05", there.number);
    show_log("an archive's log, by frame 05", wide, there.written);
    fortuna_conversion back = fortuna_convert(wide, there.written, false, narrow, sizeof narrow);
    must("conversion to frame 01", back.number);
    show_log("and by frame 01 again", narrow, back.written);
}

/* A log from a hub, for a reader that knows frame 01 alone. Source 900 has no place there: the call says in which line,
   and the lines before it are written. */
static void convert_hub(void)
{
    static const uint8_t log[] = "05000700A1B2\n02000000640010\n050384003C\n04000000C8\n";
    uint8_t narrow[sizeof log];
    fortuna_conversion c = fortuna_convert(log, sizeof log - 1, false, narrow, sizeof narrow);
    if (c.number != FORTUNA_DONE)
        printf("a hub's log by frame 01, line %zu: refused, %u (%s)\n", c.line, c.number, reason(c.number));
    show_log("the lines before it", narrow, c.written);
}

/* A pool's byte string, event by event, up to its end or to the place where no event starts. */
static void list_events(const uint8_t *string, size_t length)
{
    printf("a pool's string: ");
    print_bytes(string, length);
    fortuna_entry e = fortuna_entry_at(string, length, 0);
    for (; e.found; e = fortuna_entry_at(string, length, e.next)) {
        printf("source %u, data ", e.source);
        print_bytes(string + e.from, e.next - e.from);
    }
    if (e.number != FORTUNA_DONE)
        printf("place %zu: refused, %u (%s)\n", e.place, e.number, reason(e.number));
}

/* For an analyst, who has a pool's string from bin/logbook --strings: an event of source 7 and one of source 900. Then
   the string's last byte is lost, so that no list of events gives it. */
static void question_key(void)
{
    static const uint8_t string[] = {0x07, 0x00, 2, 0xa1, 0xb2, 0x84, 0x03, 1, 0x05};
    list_events(string, sizeof string);
    list_events(string, sizeof string - 1);
}

/* Another digitiser, fresh from the works. Its second power-up finds the seed that the first one left in the page. */
static void start_twice(void)
{
    uint8_t page[SEED];
    memset(page, 0xff, sizeof page);
    for (int i = 1; i <= 2; i++) {
        printf("fresh from the works, power-up %d\n", i);
        fortuna_state f = fortuna_new();
        power_up(&f, 10, page);
        draw_key(&f, 1000);
    }
}

/* ---- a tiltmeter that floods while a seismometer goes on */

enum { INSTRUMENTS = 3, HEADER = 3, FLOOD = 10 };

/* What an instrument may bring from one pool reseed to the next: an event for each pool. As each goes round the pools,
   it brings 35 of the 64 bytes that pool 0 needs for a reseed, and another must bring the rest. */
enum { ALLOWANCE = POOLS * (HEADER + READINGS) };

/* The state with its list of quotas. Every call on the state gets the list, those that draw too: without it an event is
   charged to nobody, and a pool reseed clears nothing. So the functions below take both as one. */
typedef struct {
    fortuna_state state;
    fortuna_quota quotas[INSTRUMENTS];
} metered;

/* An instrument, and how many of its events were taken and refused. Health tests and ring buffer are left out here: a
   device has them with a list as without. */
typedef struct {
    const char *name;
    uint32_t number, taken, refused;
} instrument;

static const instrument fresh_instruments[INSTRUMENTS] = {
    {"seismometer", 1, 0, 0}, {"tiltmeter", 4, 0, 0}, {"barometer", 900, 0, 0}};

/* By rising sources, which makes the check of the list quicker. */
static void list_quotas(fortuna_quota quotas[INSTRUMENTS], uint32_t allowance)
{
    for (size_t i = 0; i < INSTRUMENTS; i++)
        quotas[i] = (fortuna_quota){.source = fresh_instruments[i].number, .allowance = allowance};
}

static void take_readings(uint32_t number, uint32_t turn, uint8_t data[READINGS])
{
    for (uint32_t i = 0; i < READINGS; i++)
        data[i] = (uint8_t)reading(number, turn, i);
}

static uint32_t metered_event(metered *m, uint32_t number, uint32_t turn, uint32_t pool)
{
    uint8_t data[READINGS];
    take_readings(number, turn, data);
    return fortuna_metered_event(&m->state, m->quotas, INSTRUMENTS, number, pool, data, sizeof data);
}

static uint32_t next_turn(const instrument *from)
{
    return from->taken + from->refused;
}

/* Too much is no fault of the device: the event is dropped, and after the next pool reseed others are taken. */
static void count_event(instrument *from, uint32_t number)
{
    if (number != FORTUNA_OVER_ALLOWANCE) {
        must("event", number);
        from->taken++;
        return;
    }
    if (from->refused == 0)
        printf("%s, event %u: refused, %u (%s)\n", from->name, next_turn(from) + 1, number, reason(number));
    from->refused++;
}

/* An instrument's next event, for the pool after that of its last one taken. */
static void send_event(metered *m, instrument *from)
{
    count_event(from, metered_event(m, from->number, next_turn(from), from->taken % POOLS));
}

static void send_flood(metered *m, instrument *from)
{
    for (int i = 0; i < FLOOD; i++)
        send_event(m, from);
}

/* A round of the pools: in each turn the others send an event each, and the tiltmeter many. */
static void send_round(metered *m, instrument *seismometer, instrument *tiltmeter, instrument *barometer)
{
    for (int turn = 0; turn < POOLS; turn++) {
        send_flood(m, tiltmeter);
        send_event(m, seismometer);
        send_event(m, barometer);
    }
}

static void show_spent(const fortuna_quota quotas[INSTRUMENTS], const instrument from[INSTRUMENTS])
{
    for (size_t i = 0; i < INSTRUMENTS; i++)
        printf("%s: %u events taken, %u refused, %u of %u bytes spent\n", from[i].name, from[i].taken, from[i].refused,
               quotas[i].spent, quotas[i].allowance);
}

/* A source that nobody put on the list. */
static void send_unlisted(metered *m)
{
    const uint32_t number = metered_event(m, 7, 0, 0);
    if (number != FORTUNA_DONE)
        printf("event of source 7: refused, %u (%s)\n", number, reason(number));
}

/* The calls that draw, each with the list. The first makes the pool reseed, after which nothing is spent. */
static void draw_metered(metered *m, uint32_t clock)
{
    uint8_t key[KEY];
    uint16_t list[STATIONS];
    fortuna_answer a = fortuna_metered_request(&m->state, m->quotas, INSTRUMENTS, clock, key, sizeof key);
    show_key(clock, a, key);
    show_slot(clock, fortuna_metered_random_below(&m->state, m->quotas, INSTRUMENTS, clock, SLOTS, TRIES));
    number_stations(list);
    must("shuffle", fortuna_metered_shuffle(&m->state, m->quotas, INSTRUMENTS, clock, list, STATIONS).number);
    show_order(list);
}

/* A power-up from the seed that the last one left, with a list from the first call to the last. */
static void flood(uint8_t page[SEED])
{
    instrument all[INSTRUMENTS];
    metered m = {.state = fortuna_new()};
    memcpy(all, fresh_instruments, sizeof all);
    list_quotas(m.quotas, ALLOWANCE);
    printf("a tiltmeter floods\n");
    must("seed update", fortuna_metered_update(&m.state, m.quotas, INSTRUMENTS, 10, page, SEED).number);
    store("seed updated", page);
    send_round(&m, &all[0], &all[1], &all[2]);
    send_unlisted(&m);
    show_spent(m.quotas, all);
    draw_metered(&m, 1000);
    send_flood(&m, &all[1]); /* taken again, after the pool reseed */
    show_spent(m.quotas, all);
    must("seed write", fortuna_metered_write(&m.state, m.quotas, INSTRUMENTS, 2000, page, SEED).number);
    store("seed for the next start", page);
}

/* ---- a permanent station, whose network wants keys from CTR_DRBG */

enum { ENTROPY = 48 };

/* Stands for an input that is not given: no bytes, but not a null pointer. */
static const uint8_t none[1];

/* Entropy input must have full entropy. Readings have not. Fortuna makes bytes of them that nobody can tell who does
   not know its key; they hold at most its 256 bits. Each seeding gets new ones. */
static void draw_entropy(fortuna_state *f, uint32_t clock, uint8_t entropy[ENTROPY])
{
    must("entropy input", fortuna_request(f, clock, entropy, ENTROPY).number);
}

/* A byte is missing: the call says so, and the state stays as it was. */
static void cut_entropy(fortuna_ctr_drbg *d, const uint8_t entropy[ENTROPY])
{
    const uint32_t number = fortuna_ctr_drbg_instantiate(d, entropy, ENTROPY - 1, none, 0);
    if (number != FORTUNA_DONE)
        printf("instantiate with %d bytes: refused, %u (%s)\n", ENTROPY - 1, number, reason(number));
}

/* With additional input, which need not be secret, or with none. */
static void draw_network_key(fortuna_ctr_drbg *d, const uint8_t *additional, size_t length)
{
    uint8_t key[KEY];
    must("key of CTR_DRBG", fortuna_ctr_drbg_generate(d, key, sizeof key, additional, length));
    printf("key of CTR_DRBG, request %u since its seeding: ", (unsigned)d->reseed_counter - 1);
    print_bytes(key, sizeof key);
}

/* A power-up, and noise before any entropy input is drawn. The personalization string is the station's name, so that no
   other starts as this one does. */
static void run_permanent(uint8_t page[SEED])
{
    static const uint8_t name[] = "permanent station 12", link[] = "link to the observatory";
    uint8_t entropy[ENTROPY];
    fortuna_state f = fortuna_new();
    fortuna_ctr_drbg d = fortuna_ctr_drbg_new();
    printf("a permanent station\n");
    power_up(&f, 10, page);
    gather_noise(&f);
    draw_entropy(&f, 1000, entropy);
    cut_entropy(&d, entropy);
    must("instantiate", fortuna_ctr_drbg_instantiate(&d, entropy, ENTROPY, name, sizeof name - 1));
    draw_network_key(&d, none, 0);
    draw_network_key(&d, link, sizeof link - 1);
    draw_entropy(&f, 2000, entropy);
    must("reseed", fortuna_ctr_drbg_reseed(&d, entropy, ENTROPY, none, 0));
    draw_network_key(&d, none, 0);
}

/* ---- pools chosen by key, for noise that comes in bursts */

/* Stands in for the 32 bytes that were made in the works by a generator of its own, and are kept beside the seed. */
static const uint8_t scheduler_key[32] = "scheduler key made in the works";

/* How many of a fresh start's first events are in the key: those of a pool, once a step empties it. Without a stored
   seed a device would draw nothing before this is enough by the estimate of its sources. */
static uint32_t events_entered(uint64_t steps)
{
    uint32_t waiting[POOLS + 1] = {0}, entered = 0; /* the last one for steps that empty no pool */
    for (uint64_t step = 0; step < steps; step++) {
        const uint32_t out = fortuna_keyed_output(step);
        waiting[fortuna_keyed_input(scheduler_key, step)]++;
        entered += waiting[out];
        waiting[out] = 0;
    }
    return entered;
}

/* Each instrument sends an event in each turn. Nobody names a pool. Health tests and ring buffer are left out here too:
   a device has them. */
static void gather_by_key(fortuna_keyed *f)
{
    uint8_t data[READINGS];
    uint32_t emptied = 0;
    for (uint32_t turn = 0; turn < TURNS; turn++)
        for (size_t i = 0; i < INSTRUMENTS; i++) {
            take_readings(fresh_instruments[i].number, turn, data);
            const fortuna_answer a = fortuna_keyed_event(f, fresh_instruments[i].number, data, sizeof data);
            must("event", a.number);
            emptied += a.emptied;
        }
    printf("%u events taken, pools emptied %u, events in the key %u\n", (unsigned)f->step, emptied,
           events_entered(f->step));
}

/* What the next event does, for whoever services the digitiser. bin/steps prints the same. */
static void show_step(const fortuna_keyed *f)
{
    const uint32_t out = fortuna_keyed_output(f->step);
    printf("step %u: event to pool %u", (unsigned)f->step, fortuna_keyed_input(f->scheduler_key, f->step));
    if (out < POOLS)
        printf(", empties pool %u", out);
    printf("\n");
}

static void show_key_by_step(uint64_t step, uint32_t number, const uint8_t key[KEY])
{
    if (number != FORTUNA_DONE) {
        printf("key after %u events: refused, %u (%s)\n", (unsigned)step, number, reason(number));
        return;
    }
    printf("key after %u events: ", (unsigned)step);
    print_bytes(key, KEY);
}

static void draw_key_by_step(fortuna_keyed *f)
{
    uint8_t key[KEY];
    const fortuna_answer a = fortuna_keyed_request(f, key, sizeof key);
    show_key_by_step(f->step, a.number, key);
}

/* A power-up with pools chosen by key. The seed goes in first: from the 33rd event on a key would be drawn without it
   too, whatever the noise was worth. */
static void run_keyed(uint8_t page[SEED])
{
    fortuna_keyed f = fortuna_keyed_new(scheduler_key);
    printf("pools chosen by key\n");
    draw_key_by_step(&f);
    must("seed update", fortuna_keyed_update(&f, page, SEED).number);
    store("seed updated", page);
    gather_by_key(&f);
    show_step(&f);
    draw_key_by_step(&f);
    must("seed write", fortuna_keyed_write(&f, page, SEED).number);
    store("seed for the next start", page);
}

/* What an instrument may bring from one emptying to the next: 16 events. The first comes with the 33rd event, and then
   one with every 32nd: so all three must be able to bring 33 together, and these may bring 48. */
enum { KEYED_ALLOWANCE = 16 * (HEADER + READINGS) };

typedef struct {
    fortuna_keyed state;
    fortuna_quota quotas[INSTRUMENTS];
} keyed_metered;

static void send_by_key(keyed_metered *m, instrument *from)
{
    uint8_t data[READINGS];
    take_readings(from->number, next_turn(from), data);
    const fortuna_answer a = fortuna_keyed_metered_event(&m->state, m->quotas, INSTRUMENTS, from->number, data,
                                                         sizeof data);
    count_event(from, a.number);
}

/* In each turn the tiltmeter sends many events, and the others one each. */
static void send_round_by_key(keyed_metered *m, instrument *seismometer, instrument *tiltmeter, instrument *barometer)
{
    for (int turn = 0; turn < POOLS; turn++) {
        for (int i = 0; i < FLOOD; i++)
            send_by_key(m, tiltmeter);
        send_by_key(m, seismometer);
        send_by_key(m, barometer);
    }
}

/* A power-up with pools chosen by key and a list of quotas, which every call gets. */
static void flood_keyed(uint8_t page[SEED])
{
    uint8_t key[KEY];
    instrument all[INSTRUMENTS];
    keyed_metered m = {.state = fortuna_keyed_new(scheduler_key)};
    memcpy(all, fresh_instruments, sizeof all);
    list_quotas(m.quotas, KEYED_ALLOWANCE);
    printf("a tiltmeter floods, pools chosen by key\n");
    must("seed update", fortuna_keyed_metered_update(&m.state, m.quotas, INSTRUMENTS, page, SEED).number);
    store("seed updated", page);
    send_round_by_key(&m, &all[0], &all[1], &all[2]);
    show_spent(m.quotas, all);
    const fortuna_answer a = fortuna_keyed_metered_request(&m.state, m.quotas, INSTRUMENTS, key, sizeof key);
    show_key_by_step(m.state.step, a.number, key);
    must("seed write", fortuna_keyed_metered_write(&m.state, m.quotas, INSTRUMENTS, page, SEED).number);
    store("seed for the next start", page);
}

int main(void)
{
    show_edition();
    show_ciphers();

    /* Fresh at each start, with the seed to go on from. A state kept from before the 2010 edition's D could give wrong
       keys, and nothing would tell: the header says why. */
    fortuna_state f = fortuna_new();

    draw_key(&f, 0);
    power_up(&f, 10, flash);
    gather_noise(&f);
    draw_key(&f, 1000);
    draw_key(&f, 1050);
    misplace_event(&f);
    misjudge_cutoff();
    draw_slot(&f, 1200);
    order_stations(&f, 1250);
    show_staleness(&f);

    write_seed(&f, 2000, flash);
    run_log();
    convert_archive();
    convert_hub();
    question_key();
    start_twice();
    flood(flash);
    run_permanent(flash);
    run_keyed(flash);
    flood_keyed(flash);
    return 0;
}
