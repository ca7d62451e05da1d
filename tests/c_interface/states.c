/* Makes single calls on any states: a call with its state on each line of standard input, and what came back on a line
   of standard output. tests/c_interface/states_fuzz.py writes the one and reads the other.

   A line is hexadecimal. First a byte for the call: 1 event, 2 request, 3 update, 4 write, 5 draw, 6 shuffle, with 16
   added for one that takes quotas. Then the state: key, counter, 32 times a pool's chain, tail and length, then
   last_reseed, reseed_count, a byte for reseeded, and key_requests in 2 bytes. Then the quotas, if any: their number in
   2 bytes, and of each the source, allowance and spent. Then source and pool for an event, or the clock; for a draw
   then n in 8 bytes and the tries in 4; for the others the rest is the data, the buffer, or the list, 2 bytes a number.
   Numbers have their most significant byte first. Back come the number, the pools emptied, the data, buffer or list
   after the call or the value drawn, in 8 bytes, the quotas left, if any, and the next state, laid out the same. */
#define _POSIX_C_SOURCE 200809L
#include "fortuna.h"
#include "lent.h"
#include "quotas.h"

enum { EVENT = 1, REQUEST, UPDATE, WRITE, DRAW, SHUFFLE, WITH_QUOTAS = 16 };

/* The layout that stored states count on. */
_Static_assert(sizeof(fortuna_state) == 3392, "the state's size");
_Static_assert(offsetof(fortuna_state, reseeded) == 3384, "where reseeded stands");
_Static_assert(offsetof(fortuna_state, key_requests) == 3386, "where key_requests stands");
_Static_assert(sizeof(fortuna_quota) == 12, "a record's size");

/* What is left to read of a line. */
typedef struct {
    const uint8_t *at;
    size_t left;
} reader;

static void take(reader *r, void *to, size_t length)
{
    if (r->left < length)
        stop("a line that is too short");
    memcpy(to, r->at, length);
    r->at += length;
    r->left -= length;
}

static uint64_t take_number(reader *r, size_t length)
{
    uint8_t bytes[8];
    uint64_t n = 0;
    take(r, bytes, length);
    for (size_t i = 0; i < length; i++)
        n = n << 8 | bytes[i];
    return n;
}

static void take_pool(reader *r, fortuna_pool *p)
{
    for (int i = 0; i < 8; i++)
        p->chain[i] = (uint32_t)take_number(r, 4);
    take(r, p->tail, sizeof p->tail);
    p->length = take_number(r, 8);
}

static fortuna_state take_state(reader *r)
{
    fortuna_state s;
    take(r, s.generator.key, sizeof s.generator.key);
    take(r, s.generator.counter, sizeof s.generator.counter);
    for (int i = 0; i < 32; i++)
        take_pool(r, &s.pools[i]);
    s.last_reseed = (uint32_t)take_number(r, 4);
    s.reseed_count = (uint32_t)take_number(r, 4);
    s.reseeded = take_number(r, 1) != 0;
    s.key_requests = (uint16_t)take_number(r, 2);
    return s;
}

static void print_state(const fortuna_state *s)
{
    print_bytes(s->generator.key, sizeof s->generator.key);
    print_bytes(s->generator.counter, sizeof s->generator.counter);
    for (int i = 0; i < 32; i++) {
        for (int j = 0; j < 8; j++)
            printf("%08x", s->pools[i].chain[j]);
        print_bytes(s->pools[i].tail, sizeof s->pools[i].tail);
        printf("%016llx", (unsigned long long)s->pools[i].length);
    }
    printf("%08x%08x%02x%04x\n", s->last_reseed, s->reseed_count, s->reseeded, s->key_requests);
}

static quota_list take_quotas(reader *r)
{
    quota_list quotas = lend_quotas((size_t)take_number(r, 2));
    for (size_t i = 0; i < quotas.count; i++) {
        quotas.records[i].source = (uint32_t)take_number(r, 4);
        quotas.records[i].allowance = (uint32_t)take_number(r, 4);
        quotas.records[i].spent = (uint32_t)take_number(r, 4);
    }
    return quotas;
}

static void print_quotas(quota_list quotas)
{
    for (size_t i = 0; i < quotas.count; i++)
        printf("%08x%08x%08x", quotas.records[i].source, quotas.records[i].allowance, quotas.records[i].spent);
    printf(" ");
}

static fortuna_answer call(uint8_t kind, fortuna_state *state, const quota_list *quotas, const uint32_t arguments[2],
    uint8_t *buffer, size_t length)
{
    switch (kind) {
    case EVENT:
        return (fortuna_answer){event_with(state, quotas, arguments[0], arguments[1], buffer, length), 0};
    case REQUEST:
        return request_with(state, quotas, arguments[0], buffer, length);
    case UPDATE:
        return update_with(state, quotas, arguments[0], buffer, length);
    case WRITE:
        return write_with(state, quotas, arguments[0], buffer, length);
    default:
        stop("a line with no call");
    }
}

static void answer_buffer(uint8_t kind, fortuna_state *state, const quota_list *quotas, reader r)
{
    uint32_t arguments[2] = {(uint32_t)take_number(&r, 4), 0};
    if (kind == EVENT)
        arguments[1] = (uint32_t)take_number(&r, 4);
    size_t length = r.left;
    uint8_t *buffer = lend(length);
    take(&r, buffer, length);
    fortuna_answer a = call(kind, state, quotas, arguments, buffer, length);
    printf("%u %u ", a.number, a.emptied);
    print_bytes(buffer, length);
    give_back(buffer, length);
}

static void answer_draw(fortuna_state *state, const quota_list *quotas, reader r)
{
    uint32_t clock = (uint32_t)take_number(&r, 4);
    uint64_t n = take_number(&r, 8);
    uint32_t tries = (uint32_t)take_number(&r, 4);
    fortuna_draw d = draw_with(state, quotas, clock, n, tries);
    printf("%u %u %016llx", d.number, d.emptied, (unsigned long long)d.value);
}

static void answer_shuffle(fortuna_state *state, const quota_list *quotas, reader r)
{
    uint32_t clock = (uint32_t)take_number(&r, 4);
    size_t length = r.left / 2;
    uint16_t *list = lend(length * sizeof *list);
    for (size_t i = 0; i < length; i++)
        list[i] = (uint16_t)take_number(&r, 2);
    fortuna_answer a = shuffle_with(state, quotas, clock, list, length);
    printf("%u %u ", a.number, a.emptied);
    for (size_t i = 0; i < length; i++)
        printf("%04x", list[i]);
    give_back(list, length * sizeof *list);
}

static void answer_call(uint8_t kind, fortuna_state *state, const quota_list *quotas, reader r)
{
    if (kind == DRAW)
        answer_draw(state, quotas, r);
    else if (kind == SHUFFLE)
        answer_shuffle(state, quotas, r);
    else
        answer_buffer(kind, state, quotas, r);
    printf(" ");
}

static void answer(reader r)
{
    uint8_t kind = (uint8_t)take_number(&r, 1);
    fortuna_state state = take_state(&r);
    if (kind < WITH_QUOTAS) {
        answer_call(kind, &state, NULL, r);
    } else {
        quota_list quotas = take_quotas(&r);
        answer_call(kind - WITH_QUOTAS, &state, &quotas, r);
        print_quotas(quotas);
        give_back_quotas(quotas);
    }
    print_state(&state);
}

int main(void)
{
    char *line = NULL;
    size_t room = 0;
    ssize_t length;
    while ((length = getline(&line, &room, stdin)) > 0) {
        if (line[length - 1] == '\n')
            length--;
        decode(line, (size_t)length, (uint8_t *)line);
        answer((reader){(const uint8_t *)line, (size_t)length / 2});
        fflush(stdout);
    }
    free(line);
    return 0;
}
