/* metered SOURCE ALLOWANCE.. <LOG

   Makes the calls of a log as the bench does, from a fresh station, but each with the list of quotas that the last one
   left. The words are the list before the first call, with nothing spent. Takes events and requests; answers as the
   bench does. tests/bench/checklist.py runs it in April.

   Exit status: 0 every line was answered; 1 a call wrote outside its buffer, or a line or a word is none of these. */
#define _POSIX_C_SOURCE 200809L
#include "../c_interface/lent.h"
#include "fortuna.h"

#include <inttypes.h>

enum { MOST_FRAME = 129 };

typedef struct {
    fortuna_state state;
    fortuna_quota *quotas;
    size_t records;
} station;

/* The bytes that a line's digits stand for, and how many. */
static size_t read_frame(const char *line, uint8_t frame[MOST_FRAME])
{
    size_t length = 0;
    unsigned byte;
    for (; length < MOST_FRAME && sscanf(line + 2 * length, "%2X", &byte) == 1; length++)
        frame[length] = (uint8_t)byte;
    return length;
}

/* The number in so many bytes, most significant first. */
static uint32_t number_in(const uint8_t *bytes, size_t count)
{
    uint32_t number = 0;
    for (size_t i = 0; i < count; i++)
        number = number << 8 | bytes[i];
    return number;
}

/* width is how many bytes the source has. */
static void event(station *s, const uint8_t *frame, size_t length, size_t width)
{
    const size_t before = 2 + width; /* the bytes before the data */
    if (length < before)
        stop("a line that is no event");
    const uint32_t source = number_in(frame + 1, width);
    printf("%02" PRIu32 "\n", fortuna_metered_event(&s->state, s->quotas, s->records, source, frame[before - 1],
                                                    frame + before, length - before));
}

static void request(station *s, const uint8_t *frame, size_t length)
{
    if (length != 7)
        stop("a line that is no request");
    const size_t size = number_in(frame + 5, 2);
    uint8_t *out = lend(size);
    const fortuna_answer a =
        fortuna_metered_request(&s->state, s->quotas, s->records, number_in(frame + 1, 4), out, size);
    printf("%02" PRIu32, a.number);
    if (a.number == FORTUNA_DONE)
        printf(" %02" PRIu32 "%s", a.emptied, size ? " " : "");
    for (size_t i = 0; a.number == FORTUNA_DONE && i < size; i++)
        printf("%02X", out[i]);
    printf("\n");
    give_back(out, size);
}

static void answer(station *s, const char *line)
{
    uint8_t frame[MOST_FRAME];
    const size_t length = read_frame(line, frame);
    const int first = length ? frame[0] : 0;
    if (first == 1)
        event(s, frame, length, 1);
    else if (first == 5)
        event(s, frame, length, 2);
    else if (first == 2)
        request(s, frame, length);
    else
        stop("a line that is neither an event nor a request");
}

static uint32_t number(const char *word)
{
    char *end;
    const unsigned long n = strtoul(word, &end, 10);
    if (*word < '0' || *word > '9' || *end || n > UINT32_MAX)
        stop("a word that is no number, or one too large");
    return (uint32_t)n;
}

int main(int count, char **words)
{
    station s = {.state = fortuna_new(), .records = (size_t)(count - 1) / 2};
    if (count % 2 == 0)
        stop("a source with no allowance");
    s.quotas = lend(s.records * sizeof *s.quotas);
    for (size_t i = 0; i < s.records; i++)
        s.quotas[i] = (fortuna_quota){.source = number(words[2 * i + 1]), .allowance = number(words[2 * i + 2])};
    char *line = NULL;
    size_t room = 0;
    while (getline(&line, &room, stdin) > 0)
        answer(&s, line);
    free(line);
    give_back(s.quotas, s.records * sizeof *s.quotas);
    return 0;
}
