/* Makes the health tests of a script on standard input, all on one test state, and prints an answer for each line.
   health_script.py, beside this, says how lines and answers are laid out:

       fresh
       state LAST RUN FIRST COUNT SEEN
       test REPETITION PROPORTION SAMPLES

   SAMPLES are parts with commas between them, or - for none: a sample, SAMPLE*TIMES, or FROM..TO, which counts up. An
   answer is flushed before the next line is read, so that a program can ask line by line; bin/health does.

   Exit status: 0 every line was answered; 1 a call did what none may do, or memory, reading or writing failed; 2 a line
   that is none of these. */
#define _POSIX_C_SOURCE 200809L
#include "fortuna.h"
#include "lent.h"

#include <errno.h>
#include <inttypes.h>

/* The layout that kept states count on. */
_Static_assert(sizeof(fortuna_health) == 20, "the test state's size");
_Static_assert(sizeof(fortuna_health_answer) == 16, "the answer's size");

enum { MOST_SAMPLES = 1 << 24 }; /* of a line, so that a slip in TIMES or TO takes no gigabytes */

static const char NO_NUMBER[] = "no whole number up to 4294967295 where one must stand";

static unsigned long line_number;

static _Noreturn void bad_line(const char *why)
{
    fflush(stdout);
    fprintf(stderr, "health: line %lu: %s\n", line_number, why);
    exit(2);
}

/* ---- the words of a line */

static char *word(char **rest)
{
    char *found = *rest;
    size_t length = strcspn(found, " ");
    if (length == 0)
        bad_line("a word that is missing");
    *rest += length + (found[length] != '\0');
    found[length] = '\0';
    return found;
}

static void no_more(const char *rest)
{
    if (*rest)
        bad_line("a word too many");
}

/* The number at the text's start, which is left behind. */
static uint32_t number(char **text)
{
    char *start = *text;
    errno = 0;
    unsigned long long n = strtoull(start, text, 10);
    if (*start < '0' || *start > '9' || errno || n > UINT32_MAX)
        bad_line(NO_NUMBER);
    return (uint32_t)n;
}

static uint32_t word_number(char **rest)
{
    char *text = word(rest);
    uint32_t n = number(&text);
    if (*text)
        bad_line(NO_NUMBER);
    return n;
}

/* A part of the samples: size of them, the first one and what each has more than the one before. */
typedef struct {
    uint32_t first, step;
    uint64_t size;
} part;

static part take_part(char **text)
{
    part p = {number(text), 0, 1};
    if (**text == '*') {
        ++*text;
        p.size = number(text);
    } else if (strncmp(*text, "..", 2) == 0) {
        *text += 2;
        uint32_t last = number(text);
        if (last < p.first)
            bad_line("samples that count up to one below the first");
        p.step = 1;
        p.size = (uint64_t)last - p.first + 1;
    }
    if (**text != '\0' && **text != ',')
        bad_line("samples that are neither N nor N*TIMES nor FROM..TO");
    return p;
}

/* Stores the samples that the text stands for, or only counts them where there is no place to store them. */
static size_t take_samples(char *text, uint32_t *samples)
{
    size_t length = 0;
    if (strcmp(text, "-") == 0)
        return 0;
    for (;; text++) {
        part p = take_part(&text);
        if (p.size > MOST_SAMPLES - length)
            bad_line("more than 16777216 samples");
        for (uint64_t i = 0; i < p.size; i++, length++)
            if (samples)
                samples[length] = p.first + p.step * (uint32_t)i;
        if (*text == '\0')
            return length;
    }
}

/* ---- the lines */

static void set(fortuna_health *state, char *rest)
{
    state->last = word_number(&rest);
    state->run = word_number(&rest);
    state->first = word_number(&rest);
    state->count = word_number(&rest);
    state->seen = word_number(&rest);
    no_more(rest);
}

static const char *told(fortuna_health_answer a)
{
    if (a.repetition)
        return a.proportion ? "both" : "repetition";
    return a.proportion ? "proportion" : "none";
}

static void test(fortuna_health *state, char *rest)
{
    uint32_t repetition = word_number(&rest);
    uint32_t proportion = word_number(&rest);
    char *text = word(&rest);
    no_more(rest);
    size_t length = take_samples(text, NULL);
    size_t size = length * sizeof(uint32_t);
    uint32_t *samples = lend(size), *kept = lend(size);
    take_samples(text, samples);
    take_samples(text, kept);
    fortuna_health_answer a = fortuna_health_test(state, samples, length, repetition, proportion);
    if (memcmp(samples, kept, size) != 0)
        stop("a call changed the samples lent");
    give_back(samples, size);
    give_back(kept, size);
    printf("%" PRIu32 " %zu %s ", a.number, a.place, told(a));
}

static void answer(fortuna_health *state, char *line)
{
    const char *name = word(&line);
    if (strcmp(name, "test") == 0) {
        test(state, line);
    } else if (strcmp(name, "state") == 0) {
        set(state, line);
    } else if (strcmp(name, "fresh") == 0) {
        no_more(line);
        *state = fortuna_health_new();
    } else {
        bad_line("neither fresh nor state nor test");
    }
    printf("%" PRIu32 " %" PRIu32 " %" PRIu32 " %" PRIu32 " %" PRIu32 "\n",
           state->last, state->run, state->first, state->count, state->seen);
}

/* fortuna_health_passed of answers as they come, and of some that don't: the place decides nothing. */
static void check_passed(void)
{
    static const struct {
        fortuna_health_answer answer;
        bool passed;
    } rows[] = {
        {{0, false, false, 0}, true},   {{0, false, false, 7}, true},
        {{0, true, false, 0}, false},   {{0, true, false, 7}, false},
        {{0, false, true, 0}, false},   {{0, false, true, 7}, false},
        {{0, true, true, 0}, false},    {{0, true, true, 7}, false},
        {{34, false, false, 0}, false}, {{34, false, false, 7}, false},
        {{35, false, false, 0}, false}, {{35, false, false, 7}, false},
    };
    for (size_t i = 0; i < sizeof rows / sizeof rows[0]; i++)
        if (fortuna_health_passed(rows[i].answer) != rows[i].passed)
            stop("fortuna_health_passed is not what an answer says");
}

int main(void)
{
    check_passed();
    fortuna_health state = fortuna_health_new();
    char *line = NULL;
    size_t room = 0;
    ssize_t length;
    while ((length = getline(&line, &room, stdin)) > 0) {
        line_number++;
        if (line[length - 1] == '\n')
            line[--length] = '\0';
        if (strlen(line) != (size_t)length)
            bad_line("a byte 0");
        answer(&state, line);
        if (fflush(stdout) != 0)
            stop("standard output could not be written");
    }
    if (ferror(stdin))
        stop("standard input could not be read");
    free(line);
    return 0;
}
