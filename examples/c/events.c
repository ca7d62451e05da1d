/* events <STRINGS >EVENTS

   Reads pools' byte strings back into the events that they come from. A line of STRINGS is

       reseed R, pool I: HEX

   with nothing behind the colon for an empty string, as bin/logbook --strings prints it. Each of its events becomes a
   line

       reseed R, pool I, order K, source S, data HEX

   bin/events runs this. The library reads a string that is in memory as a whole. So each line is held whole, of any
   length, and the bytes take the place of the digits that stand for them.

   Exit status: 0 every string was read; 1 no whole event stands at a place of a string, and the events before it are
   written; 2 a line of another form, no memory for a line, bad arguments, or reading or writing failed. */
#define _POSIX_C_SOURCE 200809L
#include "fortuna.h"
#include "streams.h"

#include <inttypes.h>

enum { PIECE = 65536 }; /* bytes that are read or written at once, where a line needs no more */
enum { MOST_POOL = 31 };
enum { MOST_WRITTEN = 256 }; /* more characters than an event's line has: 64 of data, and four numbers of up to 20 */

/* ---- writing */

static char out[PIECE];
static size_t used; /* characters that wait to be written */

static void flush(void)
{
    write_all((const uint8_t *)out, used);
    used = 0;
}

static void put_digits(const uint8_t *bytes, size_t length)
{
    for (size_t i = 0; i < length; i++) {
        out[used++] = "0123456789ABCDEF"[bytes[i] >> 4];
        out[used++] = "0123456789ABCDEF"[bytes[i] & 15];
    }
}

/* ---- lines */

static uint8_t *held;        /* what was read: a line, and what has come behind it */
static size_t size;          /* of that memory */
static size_t start, length; /* of what is not used up yet */

/* Room for at least a byte more behind what is held. */
static void make_room(void)
{
    if (length > 0 && start > 0)
        memmove(held, held + start, length);
    start = 0;
    if (length < size)
        return;
    size_t larger = size ? 2 * size : PIECE;
    uint8_t *moved = larger > size ? realloc(held, larger) : NULL;
    if (!moved) {
        flush();
        errno = ENOMEM;
        failed("a line is too long");
    }
    held = moved;
    size = larger;
}

/* How many bytes of what is held are the next line and its end; 0 where there is no line left. What waits is written
   before the program may have to wait for more. */
static size_t next_line(void)
{
    size_t looked_at = 0;
    for (;;) {
        const uint8_t *end = length > looked_at ? memchr(held + start + looked_at, '\n', length - looked_at) : NULL;
        if (end)
            return (size_t)(end - (held + start)) + 1;
        looked_at = length;
        make_room();
        flush();
        size_t count = read_some(held + length, size - length);
        if (count == 0)
            return length; /* a last line without a line feed */
        length += count;
    }
}

/* ---- what a line says */

typedef struct {
    uint8_t *at;
    size_t left;
} text;

typedef struct {
    uint64_t reseed, pool;
    uint8_t *bytes;
    size_t length;
} pool_string;

static bool take_word(text *t, const char *word)
{
    size_t count = strlen(word);
    if (t->left < count || memcmp(t->at, word, count) != 0)
        return false;
    t->at += count;
    t->left -= count;
    return true;
}

/* A number without zeros in front. */
static bool take_number(text *t, uint64_t *number)
{
    size_t digits = 0;
    *number = 0;
    for (; t->left > 0 && *t->at >= '0' && *t->at <= '9'; t->at++, t->left--, digits++) {
        uint64_t digit = (uint64_t)(*t->at - '0');
        if ((digits > 0 && *number == 0) || *number > (UINT64_MAX - digit) / 10)
            return false;
        *number = 10 * *number + digit;
    }
    return digits > 0;
}

/* The value of a digit, small or capital; 16 of another character. */
static unsigned value(uint8_t c)
{
    if (c >= '0' && c <= '9')
        return c - '0';
    if (c >= 'A' && c <= 'F')
        return c - 'A' + 10u;
    return c >= 'a' && c <= 'f' ? c - 'a' + 10u : 16;
}

/* The bytes that the rest of the line stands for, in the place of its first digits. */
static bool take_bytes(text *t, pool_string *s)
{
    s->bytes = t->at;
    s->length = t->left / 2;
    if (t->left % 2 != 0)
        return false;
    for (size_t i = 0; i < s->length; i++) {
        unsigned high = value(t->at[2 * i]), low = value(t->at[2 * i + 1]);
        if (high > 15 || low > 15)
            return false;
        s->bytes[i] = (uint8_t)(high << 4 | low);
    }
    return true;
}

static bool take_line(text t, pool_string *s)
{
    if (!take_word(&t, "reseed ") || !take_number(&t, &s->reseed) || s->reseed == 0)
        return false;
    if (!take_word(&t, ", pool ") || !take_number(&t, &s->pool) || s->pool > MOST_POOL || !take_word(&t, ":"))
        return false;
    if (t.left > 0 && (!take_word(&t, " ") || t.left == 0))
        return false;
    return take_bytes(&t, s);
}

/* ---- events */

static void put_event(const pool_string *s, uint64_t order, fortuna_entry e)
{
    if (sizeof out - used < MOST_WRITTEN)
        flush();
    used += (size_t)snprintf(out + used, sizeof out - used,
                             "reseed %" PRIu64 ", pool %" PRIu64 ", order %" PRIu64 ", source %" PRIu32 ", data ",
                             s->reseed, s->pool, order, e.source);
    put_digits(s->bytes + e.from, e.next - e.from);
    out[used++] = '\n';
}

static void put_events(const pool_string *s, uint64_t line)
{
    fortuna_entry e = fortuna_entry_at(s->bytes, s->length, 0);
    for (uint64_t order = 1; e.found; order++) {
        put_event(s, order, e);
        e = fortuna_entry_at(s->bytes, s->length, e.next);
    }
    if (e.number == FORTUNA_DONE)
        return;
    flush();
    fprintf(stderr, "events: line %" PRIu64 ": %" PRIu32 ", no whole event at place %zu\n", line, e.number, e.place);
    exit(1);
}

static void read_strings(void)
{
    size_t whole;
    for (uint64_t line = 1; (whole = next_line()) > 0; line++) {
        text t = {.at = held + start, .left = whole - (held[start + whole - 1] == '\n')};
        pool_string s;
        if (!take_line(t, &s)) {
            flush();
            fprintf(stderr, "events: line %" PRIu64 ": not of the form 'reseed R, pool I: HEX'\n", line);
            exit(2);
        }
        put_events(&s, line);
        start += whole;
        length -= whole;
    }
}

int main(int words, char **word)
{
    (void)word;
    speaker = "events";
    if (words != 1) {
        fprintf(stderr, "usage: events <STRINGS >EVENTS\n");
        return 2;
    }
    read_strings();
    flush();
    end_output();
    free(held);
    return 0;
}
