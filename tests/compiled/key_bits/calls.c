/* Every call that works on a key, with the key's bytes marked as unknown to memcheck: it reports each jump, and each
   address, that they decide. The scheduler key is unknown too. For CTR_DRBG Key, V and the bytes of every input are
   unknown; lengths and the reseed counter are known. As 'calls blank' and 'calls other' it makes one seed update, by a
   blank page or by one whose last byte is another, with the seed's bytes unknown in place of the key's; with 'metered-'
   before the word the same with a list, and with 'keyed-' or 'keyed-metered-' on the keyed scheduler. A list of quotas
   is no secret, and known throughout: whether it is cleared must not go by the key. */
#include <fortuna.h>
#include <stdio.h>
#include <stdlib.h>
#include <string.h>
#include <valgrind/memcheck.h>

enum { OUTPUT = 40, SEED = 64, CLOCK = 1000, SLOTS = 900, RECORDS = 64, ENTROPY = 48, REQUEST = 65536 };

static uint8_t output[OUTPUT];
static uint8_t seed[SEED];
static fortuna_quota quotas[RECORDS];
static uint8_t entropy[ENTROPY], input[ENTROPY + 1], drawn[REQUEST + 1];

static void answered(const char *call, uint32_t number, uint32_t expected)
{
    if (number == expected)
        return;
    fprintf(stderr, "key_bits: %s: answered %u in place of %u\n", call, number, expected);
    exit(1);
}

static void done(const char *call, uint32_t number)
{
    answered(call, number, FORTUNA_DONE);
}

/* A seeded station whose pool 0 has 64 bytes and more, so that a reseed is due. */
static fortuna_state station(void)
{
    fortuna_state s = fortuna_new();
    for (size_t i = 0; i < SEED; i++)
        seed[i] = (uint8_t)i;
    done("update", fortuna_update(&s, 0, seed, SEED).number);
    for (uint32_t i = 0; i < 64; i++)
        done("event", fortuna_event(&s, i, i % 32, seed, 32));
    VALGRIND_MAKE_MEM_UNDEFINED(s.generator.key, sizeof s.generator.key);
    return s;
}

static void station_calls(void)
{
    fortuna_state s = station();
    uint16_t list[] = {3, 1, 4, 15, 9};
    done("event under an unknown key", fortuna_event(&s, 1, 1, seed, 32));
    done("request with a reseed", fortuna_request(&s, CLOCK, output, OUTPUT).number);
    done("request", fortuna_request(&s, CLOCK, output, OUTPUT).number);
    done("write", fortuna_write(&s, CLOCK, seed, SEED).number);
    VALGRIND_MAKE_MEM_DEFINED(seed, SEED); /* an unknown seed has runs of its own */
    done("update", fortuna_update(&s, CLOCK, seed, SEED).number);
    done("draw", fortuna_random_below(&s, CLOCK, SLOTS, 64).number);
    done("shuffle", fortuna_shuffle(&s, CLOCK, list, sizeof list / sizeof list[0]).number);
}

/* A list whose first record lets one event through. Rising sources make one way through its check, falling ones the
   other. */
static void fill_quotas(bool falling)
{
    for (uint32_t i = 0; i < RECORDS; i++)
        quotas[i] = (fortuna_quota){.source = falling ? RECORDS - i : 1 + i, .allowance = 70, .spent = 35};
}

static void cleared(const char *call)
{
    for (size_t i = 0; i < RECORDS; i++)
        answered(call, quotas[i].spent, 0);
}

/* The same calls with a list, and with lists that refuse. */
static void metered_calls(bool falling)
{
    fortuna_state s = station();
    uint16_t list[] = {3, 1, 4, 15, 9};
    fill_quotas(falling);
    done("metered event", fortuna_metered_event(&s, quotas, RECORDS, 1, 1, seed, 32));
    answered("event over its allowance", fortuna_metered_event(&s, quotas, RECORDS, 1, 1, seed, 32),
             FORTUNA_OVER_ALLOWANCE);
    answered("event not listed", fortuna_metered_event(&s, quotas, 0, 1, 1, seed, 32), FORTUNA_NOT_LISTED);
    done("metered request with a reseed", fortuna_metered_request(&s, quotas, RECORDS, CLOCK, output, OUTPUT).number);
    cleared("metered request with a reseed");
    done("metered request", fortuna_metered_request(&s, quotas, RECORDS, CLOCK, output, OUTPUT).number);
    done("metered write", fortuna_metered_write(&s, quotas, RECORDS, CLOCK, seed, SEED).number);
    VALGRIND_MAKE_MEM_DEFINED(seed, SEED);
    done("metered update", fortuna_metered_update(&s, quotas, RECORDS, CLOCK, seed, SEED).number);
    done("metered draw", fortuna_metered_random_below(&s, quotas, RECORDS, CLOCK, SLOTS, 64).number);
    done("metered shuffle",
         fortuna_metered_shuffle(&s, quotas, RECORDS, CLOCK, list, sizeof list / sizeof list[0]).number);
    quotas[RECORDS - 1].allowance = 0;
    quotas[RECORDS - 1].spent = 1;
    answered("request with a bad list", fortuna_metered_request(&s, quotas, RECORDS, CLOCK, output, OUTPUT).number,
             FORTUNA_BAD_QUOTAS);
}

/* A draw and a shuffle that make a pool reseed, so that they clear a list. */
static void metered_draws(void)
{
    fortuna_state s = station(), t = station();
    uint16_t list[] = {3, 1, 4, 15, 9};
    fill_quotas(false);
    done("metered draw with a reseed", fortuna_metered_random_below(&s, quotas, RECORDS, CLOCK, SLOTS, 64).number);
    cleared("metered draw with a reseed");
    fill_quotas(false);
    done("metered shuffle with a reseed",
         fortuna_metered_shuffle(&t, quotas, RECORDS, CLOCK, list, sizeof list / sizeof list[0]).number);
    cleared("metered shuffle with a reseed");
}

/* A seeded keyed scheduler, one step before one that empties a pool. Both its keys are unknown, the scheduler key from
   before its fresh start on. */
static fortuna_keyed keyed(void)
{
    uint8_t scheduler_key[32];
    for (size_t i = 0; i < sizeof scheduler_key; i++)
        scheduler_key[i] = (uint8_t)(3 * i + 1);
    VALGRIND_MAKE_MEM_UNDEFINED(scheduler_key, sizeof scheduler_key);
    fortuna_keyed s = fortuna_keyed_new(scheduler_key);
    for (size_t i = 0; i < SEED; i++)
        seed[i] = (uint8_t)i;
    done("keyed update", fortuna_keyed_update(&s, seed, SEED).number);
    VALGRIND_MAKE_MEM_UNDEFINED(s.generator.key, sizeof s.generator.key);
    s.step = 31;
    return s;
}

/* The step number and the number of pools emptied must be known after any call: they go by no key. */
static void emptied(const char *call, fortuna_answer a, uint32_t expected)
{
    done(call, a.number);
    answered(call, a.emptied, expected);
}

static void keyed_calls(void)
{
    fortuna_keyed s = keyed();
    emptied("keyed event", fortuna_keyed_event(&s, 1, seed, 32), 0);
    emptied("keyed event that empties a pool", fortuna_keyed_event(&s, 1, seed, 32), 1);
    emptied("keyed event, again", fortuna_keyed_event(&s, 1, seed, 1), 0);
    emptied("keyed request", fortuna_keyed_request(&s, output, OUTPUT), 0);
    emptied("keyed write", fortuna_keyed_write(&s, seed, SEED), 0);
    VALGRIND_MAKE_MEM_DEFINED(seed, SEED);
    emptied("keyed update", fortuna_keyed_update(&s, seed, SEED), 0);
    (void)fortuna_keyed_input(s.scheduler_key, s.step);
    s.step = UINT64_MAX;
    answered("keyed event past the last step", fortuna_keyed_event(&s, 1, seed, 32).number, FORTUNA_STEPS_SPENT);
    s.last_reseed = 1;
    answered("keyed event on a malformed state", fortuna_keyed_event(&s, 1, seed, 32).number, FORTUNA_MALFORMED);
}

/* The same with a list. */
static void keyed_metered_calls(void)
{
    fortuna_keyed s = keyed();
    fill_quotas(false);
    emptied("keyed metered event", fortuna_keyed_metered_event(&s, quotas, RECORDS, 1, seed, 31), 0);
    answered("keyed event over its allowance",
             fortuna_keyed_metered_event(&s, quotas, RECORDS, 1, seed, 32).number, FORTUNA_OVER_ALLOWANCE);
    emptied("keyed metered event that empties a pool",
            fortuna_keyed_metered_event(&s, quotas, RECORDS, 2, seed, 32), 1);
    cleared("keyed metered event that empties a pool");
    emptied("keyed metered request", fortuna_keyed_metered_request(&s, quotas, RECORDS, output, OUTPUT), 0);
    emptied("keyed metered write", fortuna_keyed_metered_write(&s, quotas, RECORDS, seed, SEED), 0);
    VALGRIND_MAKE_MEM_DEFINED(seed, SEED);
    emptied("keyed metered update", fortuna_keyed_metered_update(&s, quotas, RECORDS, seed, SEED), 0);
}

static void generator_calls(void)
{
    fortuna_generator g = station().generator;
    done("generator's blocks", fortuna_generator_blocks_at(&g, output, OUTPUT));
    done("generator's reseed", fortuna_generator_reseed_at(&g, output, OUTPUT));
    done("generator's request", fortuna_generator_request_at(&g, output, OUTPUT));
}

/* Both ciphers, under a key of the caller's own. */
static void cipher_calls(void)
{
    const fortuna_generator g = station().generator;
    fortuna_aes256_block(fortuna_aes256_expand(g.key), output);
    fortuna_aes256_bytewise_block(fortuna_aes256_bytewise_expand(g.key), output);
}

/* Requests on a seeded state: of no bytes, of a block, with a block cut short, of the most; with additional input and
   without. Each looks at the reseed counter, which must be known after any call. */
static void drbg_requests(fortuna_ctr_drbg *d)
{
    static const size_t lengths[] = {0, 16, OUTPUT, REQUEST};
    for (size_t i = 0; i < sizeof lengths / sizeof lengths[0]; i++) {
        done("request of CTR_DRBG", fortuna_ctr_drbg_generate(d, drawn, lengths[i], input, 0));
        done("request with one byte of input", fortuna_ctr_drbg_generate(d, drawn, lengths[i], input, 1));
        done("request with additional input", fortuna_ctr_drbg_generate(d, drawn, lengths[i], input, ENTROPY));
    }
}

static void drbg_refusals(fortuna_ctr_drbg *d)
{
    answered("seeding by 47 bytes", fortuna_ctr_drbg_instantiate(d, entropy, ENTROPY - 1, input, 0),
             FORTUNA_ENTROPY_LENGTH);
    answered("reseed by 47 bytes", fortuna_ctr_drbg_reseed(d, entropy, ENTROPY - 1, input, 0), FORTUNA_ENTROPY_LENGTH);
    answered("reseed with a long input", fortuna_ctr_drbg_reseed(d, entropy, ENTROPY, input, ENTROPY + 1),
             FORTUNA_INPUT_TOO_LONG);
    answered("request with a long input", fortuna_ctr_drbg_generate(d, drawn, OUTPUT, input, ENTROPY + 1),
             FORTUNA_INPUT_TOO_LONG);
    answered("request above the most", fortuna_ctr_drbg_generate(d, drawn, REQUEST + 1, input, 0),
             FORTUNA_REQUEST_TOO_LONG);
    d->reseed_counter = 0;
    answered("reseed of a state never seeded", fortuna_ctr_drbg_reseed(d, entropy, ENTROPY, input, 0),
             FORTUNA_SEEDING_NEEDED);
    answered("request on a state never seeded", fortuna_ctr_drbg_generate(d, drawn, OUTPUT, input, 0),
             FORTUNA_SEEDING_NEEDED);
}

/* From a fresh state, and from one whose V wraps at the first step, where a step that ended early would go furthest. */
static void drbg_calls(void)
{
    fortuna_ctr_drbg d = fortuna_ctr_drbg_new(), wraps = {.reseed_counter = 1};
    memset(wraps.v, 0xff, sizeof wraps.v);
    VALGRIND_MAKE_MEM_UNDEFINED(wraps.key, sizeof wraps.key);
    VALGRIND_MAKE_MEM_UNDEFINED(wraps.v, sizeof wraps.v);
    VALGRIND_MAKE_MEM_UNDEFINED(entropy, sizeof entropy);
    VALGRIND_MAKE_MEM_UNDEFINED(input, sizeof input);
    done("instantiate", fortuna_ctr_drbg_instantiate(&d, entropy, ENTROPY, input, ENTROPY));
    drbg_requests(&d);
    done("reseed", fortuna_ctr_drbg_reseed(&d, entropy, ENTROPY, input, ENTROPY));
    done("reseed with no input", fortuna_ctr_drbg_reseed(&d, entropy, ENTROPY, input, 0));
    drbg_refusals(&d);
    drbg_requests(&wraps);
    done("instantiate with no input", fortuna_ctr_drbg_instantiate(&wraps, entropy, ENTROPY, input, 0));
}

/* A page of FF but for its last byte, all of it unknown to memcheck. */
static void unknown_seed(uint8_t last)
{
    memset(seed, 0xff, SEED);
    seed[SEED - 1] = last;
    VALGRIND_MAKE_MEM_UNDEFINED(seed, SEED);
}

static void update_by(uint8_t last, uint32_t expected)
{
    fortuna_state s = fortuna_new();
    unknown_seed(last);
    answered("update by an unknown seed", fortuna_update(&s, 0, seed, SEED).number, expected);
}

static void metered_update_by(uint8_t last, uint32_t expected)
{
    fortuna_state s = fortuna_new();
    fill_quotas(false);
    unknown_seed(last);
    answered("metered update by an unknown seed", fortuna_metered_update(&s, quotas, RECORDS, 0, seed, SEED).number,
             expected);
}

static void keyed_update_by(uint8_t last, uint32_t expected)
{
    fortuna_keyed s = fortuna_keyed_new(output);
    unknown_seed(last);
    answered("keyed update by an unknown seed", fortuna_keyed_update(&s, seed, SEED).number, expected);
}

static void keyed_metered_update_by(uint8_t last, uint32_t expected)
{
    fortuna_keyed s = fortuna_keyed_new(output);
    fill_quotas(false);
    unknown_seed(last);
    answered("keyed metered update by an unknown seed",
             fortuna_keyed_metered_update(&s, quotas, RECORDS, seed, SEED).number, expected);
}

static const struct {
    const char *before;
    void (*update_by)(uint8_t last, uint32_t expected);
} UPDATES[] = {
    {"", update_by},
    {"metered-", metered_update_by},
    {"keyed-", keyed_update_by},
    {"keyed-metered-", keyed_metered_update_by},
};

/* Makes one update, and says whether the word asks for one. */
static bool one_update(const char *word)
{
    for (size_t i = 0; i < sizeof UPDATES / sizeof *UPDATES; i++) {
        const size_t length = strlen(UPDATES[i].before);
        if (strncmp(word, UPDATES[i].before, length) != 0)
            continue;
        if (strcmp(word + length, "blank") == 0)
            UPDATES[i].update_by(0xff, FORTUNA_BLANK_SEED);
        else if (strcmp(word + length, "other") == 0)
            UPDATES[i].update_by(0xfe, FORTUNA_DONE);
        else
            continue;
        return true;
    }
    return false;
}

int main(int count, char **words)
{
    if (count != 2 || !one_update(words[1])) {
        station_calls();
        metered_calls(false);
        metered_calls(true);
        metered_draws();
        keyed_calls();
        keyed_metered_calls();
        generator_calls();
        cipher_calls();
        drbg_calls();
    }
    return 0;
}
