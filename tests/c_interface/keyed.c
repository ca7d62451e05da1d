/* Makes the calls of a script on the keyed scheduler (02, xiv), all on one state and one list of quotas, and prints an
   answer for each line. keyed_script.py, beside this, says how lines and answers are laid out:

       new KEY
       set FIELD=VALUE..
       quotas SOURCE:ALLOWANCE:SPENT,..
       event SOURCE DATA
       request N
       update SEED
       write SEED
       metered CALL..
       input KEY STEP
       output STEP

   After every line each field of the state is compared with what it was, and what changed is printed; the bytes between
   fields are not looked at. What a call must not do ends the program with status 1: write outside what it is lent,
   change an event's data or a scheduler key, or change a buffer where it is refused. */
#define _POSIX_C_SOURCE 200809L
#include "fortuna.h"
#include "lent.h"
#include "quotas.h"
#include "words.h"

enum { POOLS = 32, KEY = 32, CHAIN = 8, TAIL = 64 };

/* The layout that kept states count on, and the numbers of 02 by their names. */
_Static_assert(sizeof(fortuna_keyed) == 3432, "the state's size");
_Static_assert(offsetof(fortuna_keyed, last_reseed) == 3376, "where last_reseed stands");
_Static_assert(offsetof(fortuna_keyed, reseed_count) == 3380, "where reseed_count stands");
_Static_assert(offsetof(fortuna_keyed, reseeded) == 3384, "where reseeded stands");
_Static_assert(offsetof(fortuna_keyed, key_requests) == 3386, "where key_requests stands");
_Static_assert(offsetof(fortuna_keyed, scheduler_key) == 3388, "where the scheduler key stands");
_Static_assert(offsetof(fortuna_keyed, step) == 3424, "where the step number stands");
_Static_assert(FORTUNA_STEPS_SPENT == 45, "no step is left");

/* The chain of an empty pool, as fortuna.h has it. */
static const uint32_t EMPTY[CHAIN] = {
    0xda5698be, 0x17b9b469, 0x62335799, 0x779fbeca, 0x8ce5d491, 0xc0d26243, 0xbafef9ea, 0x1837a9d8,
};

/* ---- fields that are bytes or a number */

typedef struct {
    const char *name;
    bool is_number;
    size_t at, size;
} field;

static const field FIELDS[] = {
    {"key", false, offsetof(fortuna_keyed, generator.key), 32},
    {"counter", false, offsetof(fortuna_keyed, generator.counter), 16},
    {"mark", true, offsetof(fortuna_keyed, last_reseed), 4},
    {"number", true, offsetof(fortuna_keyed, reseed_count), 4},
    {"flag", true, offsetof(fortuna_keyed, reseeded), 1},
    {"requests", true, offsetof(fortuna_keyed, key_requests), 2},
    {"scheduler", false, offsetof(fortuna_keyed, scheduler_key), 32},
    {"step", true, offsetof(fortuna_keyed, step), 8},
};
enum { FIELD_COUNT = sizeof FIELDS / sizeof *FIELDS };

/* Numbers have their least significant byte first in the state's memory: the library is for x86-64. */
static uint64_t number_at(const uint8_t *bytes, size_t size)
{
    uint64_t n = 0;
    for (size_t i = size; i > 0; i--)
        n = n << 8 | bytes[i - 1];
    return n;
}

static void set_number(uint8_t *bytes, size_t size, uint64_t n)
{
    for (size_t i = 0; i < size; i++)
        bytes[i] = (uint8_t)(n >> 8 * i);
}

static uint64_t most_of(const field *f)
{
    return f->at == offsetof(fortuna_keyed, reseeded) ? 1 : UINT64_MAX >> (64 - 8 * f->size);
}

static void set_field(fortuna_keyed *s, const field *f, char *value)
{
    uint8_t *bytes = (uint8_t *)s + f->at;
    if (f->is_number)
        set_number(bytes, f->size, number(value, most_of(f)));
    else
        take_bytes(value, bytes, f->size);
}

static void print_field(const field *f, const uint8_t *bytes)
{
    printf("%s=", f->name);
    if (f->is_number)
        printf("%" PRIu64, number_at(bytes, f->size));
    else
        print_bytes(bytes, f->size);
}

/* ---- pools */

static void set_pool(fortuna_pool *p, char *value)
{
    char *chain = part(&value, ":"), *tail = part(&value, ":");
    memcpy(p->chain, EMPTY, sizeof p->chain);
    if (strcmp(chain, "-") != 0) {
        uint8_t bytes[4 * CHAIN];
        take_bytes(chain, bytes, sizeof bytes);
        for (size_t i = 0; i < CHAIN; i++)
            p->chain[i] = (uint32_t)bytes[4 * i] << 24 | (uint32_t)bytes[4 * i + 1] << 16
                | (uint32_t)bytes[4 * i + 2] << 8 | bytes[4 * i + 3];
    }
    memset(p->tail, 0, sizeof p->tail);
    if (strcmp(tail, "-") != 0)
        take_bytes(tail, p->tail, strlen(tail) / 2 < TAIL ? strlen(tail) / 2 : TAIL);
    p->length = number(value, UINT64_MAX);
}

static bool same_pool(const fortuna_pool *a, const fortuna_pool *b)
{
    return memcmp(a->chain, b->chain, sizeof a->chain) == 0 && memcmp(a->tail, b->tail, sizeof a->tail) == 0
        && a->length == b->length;
}

static void print_pool(size_t i, const fortuna_pool *p)
{
    size_t used = TAIL;
    printf("pool%zu=", i);
    if (memcmp(p->chain, EMPTY, sizeof p->chain) == 0)
        putchar('-');
    else
        for (size_t j = 0; j < CHAIN; j++)
            printf("%08" PRIx32, p->chain[j]);
    while (used > 0 && p->tail[used - 1] == 0)
        used--;
    printf(used > 0 ? ":" : ":-");
    print_bytes(p->tail, used);
    printf(":%" PRIu64, p->length);
}

/* ---- what changed */

static void print_changes(const fortuna_keyed *old, const fortuna_keyed *now)
{
    const char *before = "";
    for (size_t i = 0; i < FIELD_COUNT; i++) {
        const field *f = &FIELDS[i];
        const uint8_t *bytes = (const uint8_t *)now + f->at;
        if (memcmp(bytes, (const uint8_t *)old + f->at, f->size) == 0)
            continue;
        printf("%s", before);
        print_field(f, bytes);
        before = " ";
    }
    for (size_t i = 0; i < POOLS; i++) {
        if (same_pool(&old->pools[i], &now->pools[i]))
            continue;
        printf("%s", before);
        print_pool(i, &now->pools[i]);
        before = " ";
    }
    printf("%s\n", *before ? "" : "=");
}

/* ---- the run: a state, the list of quotas that is held, and for the call that is made that list, or none */

typedef struct {
    fortuna_keyed state;
    quota_list held;
    const quota_list *taken;
} run;

/* Each call is lent a copy of the state, so that writing beside it is found out. */
static fortuna_keyed *lend_state(const run *r)
{
    fortuna_keyed *lent = lend(sizeof *lent);
    *lent = r->state;
    return lent;
}

static void take_state(run *r, fortuna_keyed *lent, fortuna_answer a)
{
    r->state = *lent;
    give_back(lent, sizeof *lent);
    printf("%" PRIu32 " %" PRIu32 " ", a.number, a.emptied);
}

static void set(run *r, char *rest)
{
    while (*rest) {
        char *value = word(&rest), *name = part(&value, "=");
        size_t i = 0;
        while (i < FIELD_COUNT && strcmp(name, FIELDS[i].name) != 0)
            i++;
        if (i < FIELD_COUNT)
            set_field(&r->state, &FIELDS[i], value);
        else if (strncmp(name, "pool", 4) == 0)
            set_pool(&r->state.pools[number(name + 4, POOLS - 1)], value);
        else
            stop("a field that is not there");
    }
}

static fortuna_keyed new_state(char *rest)
{
    input key = lend_input(word(&rest));
    no_more(rest);
    if (key.length != KEY)
        stop("a scheduler key that is not 32 bytes");
    fortuna_keyed s = fortuna_keyed_new(key.lent);
    give_back_input(key);
    return s;
}

/* ---- the calls */

static void event(run *r, char *rest)
{
    uint32_t source = (uint32_t)number(word(&rest), UINT32_MAX);
    input data = lend_input(word(&rest));
    no_more(rest);
    fortuna_keyed *lent = lend_state(r);
    take_state(r, lent, keyed_event_with(lent, r->taken, source, data.lent, data.length));
    give_back_input(data);
}

typedef fortuna_answer filling(fortuna_keyed *, const quota_list *, uint8_t *, size_t);

static void fill(run *r, filling *call, input buffer)
{
    fortuna_keyed *lent = lend_state(r);
    fortuna_answer a = call(lent, r->taken, buffer.lent, buffer.length);
    take_state(r, lent, a);
    if (a.number != FORTUNA_DONE && !is_kept(buffer))
        stop("a refused call wrote bytes");
    if (a.number == FORTUNA_DONE)
        print_given(buffer.lent, buffer.length);
    drop_input(buffer);
}

static void request(run *r, char *rest)
{
    size_t length = (size_t)number(word(&rest), MOST_BYTES);
    no_more(rest);
    fill(r, keyed_request_with, lend_buffer(length));
}

static void update(run *r, char *rest)
{
    input seed = lend_input(word(&rest));
    no_more(rest);
    fill(r, keyed_update_with, seed);
}

static void write_seed(run *r, char *rest)
{
    input seed = lend_input(word(&rest));
    no_more(rest);
    fill(r, keyed_write_with, seed);
}

static const struct {
    const char *name;
    void (*make)(run *r, char *rest);
} CALLS[] = {{"event", event}, {"request", request}, {"update", update}, {"write", write_seed}};

static void make(run *r, const char *name, char *rest)
{
    for (size_t i = 0; i < sizeof CALLS / sizeof *CALLS; i++)
        if (strcmp(name, CALLS[i].name) == 0) {
            CALLS[i].make(r, rest);
            return;
        }
    stop("a line with no call");
}

static void make_metered(run *r, char *rest)
{
    const char *name = word(&rest);
    r->taken = &r->held;
    make(r, name, rest);
    r->taken = NULL;
    print_records(r->held);
    putchar(' ');
    r->held = passed_on(r->held);
}

static void ask_input(char *rest)
{
    input key = lend_input(word(&rest));
    uint64_t step = number(word(&rest), UINT64_MAX);
    no_more(rest);
    if (key.length != KEY)
        stop("a scheduler key that is not 32 bytes");
    printf("%" PRIu32 " ", fortuna_keyed_input(key.lent, step));
    give_back_input(key);
}

/* ---- the lines */

/* Whether the line is no call on the state, which it then answers but for the changes. */
static bool is_no_call(run *r, const char *name, char *rest)
{
    if (strcmp(name, "new") == 0) {
        r->state = new_state(rest);
    } else if (strcmp(name, "set") == 0) {
        set(r, rest);
    } else if (strcmp(name, "quotas") == 0) {
        give_back_quotas(r->held);
        r->held = lend_records(word(&rest));
        no_more(rest);
    } else if (strcmp(name, "input") == 0) {
        ask_input(rest);
    } else if (strcmp(name, "output") == 0) {
        printf("%" PRIu32 " ", fortuna_keyed_output(number(rest, UINT64_MAX)));
    } else {
        return false;
    }
    return true;
}

static void answer(run *r, char *line)
{
    static const fortuna_keyed ZEROS;
    const char *name = word(&line);
    const fortuna_keyed old = strcmp(name, "new") == 0 ? ZEROS : r->state;
    if (strcmp(name, "metered") == 0)
        make_metered(r, line);
    else if (!is_no_call(r, name, line))
        make(r, name, line);
    print_changes(&old, &r->state);
}

int main(void)
{
    static const uint8_t zeros[KEY];
    run r = {fortuna_keyed_new(zeros), lend_quotas(0), NULL};
    char *line = NULL;
    size_t room = 0;
    ssize_t length;
    while ((length = getline(&line, &room, stdin)) > 0) {
        if (line[length - 1] == '\n')
            line[--length] = '\0';
        answer(&r, line);
    }
    if (ferror(stdin) || fflush(stdout) != 0)
        stop("standard input or output failed");
    give_back_quotas(r.held);
    free(line);
    return 0;
}
