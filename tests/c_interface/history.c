/* Reads pools' byte strings as a script on standard input says and prints an answer for each line. history_script.py,
   beside this, says how lines and answers are laid out:

       entry PLACE STRING
       places STRING
       read STRING

   What a call must not do ends the program with status 1: change the string or the bytes around it, or give an event
   that is not inside the string. So does a line that is none of these. */
#define _POSIX_C_SOURCE 200809L
#include "fortuna.h"
#include "lent.h"

#include <inttypes.h>

enum { PAST = 2 }; /* places past the end that `places` tries */

/* The numbers of 02 by their names. */
_Static_assert(FORTUNA_DONE == 0, "an event, or the end");
_Static_assert(FORTUNA_NO_EVENT == 44, "no whole event starts there, or it is past the end");

/* A string as the call is lent it, and a copy that no call sees. */
typedef struct {
    uint8_t *bytes, *copy;
    size_t length;
} lent_string;

static lent_string take_string(const char *text)
{
    size_t digits = strcmp(text, "-") == 0 ? 0 : strlen(text);
    if (digits % 2 != 0)
        stop("an odd number of digits");
    lent_string s = {.bytes = lend(digits / 2), .copy = lend(digits / 2), .length = digits / 2};
    decode(text, digits, s.bytes);
    decode(text, digits, s.copy);
    return s;
}

static void drop(lent_string s)
{
    give_back(s.bytes, s.length);
    give_back(s.copy, s.length);
}

static fortuna_entry call(lent_string s, size_t place)
{
    fortuna_entry e = fortuna_entry_at(s.bytes, s.length, place);
    if (memcmp(s.bytes, s.copy, s.length) != 0)
        stop("a call changed the string lent");
    if (e.found && (e.from <= place || e.next <= e.from || e.next > s.length))
        stop("an event that is not behind its place and inside the string");
    return e;
}

static void print_entry(fortuna_entry e)
{
    printf("%" PRIu32 " %" PRIu32 " %d %zu %zu %zu", e.number, e.source, e.found, e.place, e.from, e.next);
}

static void tell_entry(const char *words)
{
    size_t place;
    int text = 0;
    if (sscanf(words, "%zu %n", &place, &text) != 1 || text == 0)
        stop("an entry without a place");
    lent_string s = take_string(words + text);
    print_entry(call(s, place));
    putchar('\n');
    drop(s);
}

static void tell_places(const char *text)
{
    lent_string s = take_string(text);
    for (size_t place = 0; place <= s.length + PAST; place++) {
        print_entry(call(s, place));
        putchar(place < s.length + PAST ? '/' : '\n');
    }
    drop(s);
}

static void tell_whole(const char *text)
{
    lent_string s = take_string(text);
    fortuna_entry e = call(s, 0);
    for (; e.found; e = call(s, e.next)) {
        printf("%" PRIu32 ":", e.source);
        print_bytes(s.bytes + e.from, e.next - e.from);
        putchar(' ');
    }
    printf("%" PRIu32 " %zu\n", e.number, e.place);
    drop(s);
}

static void answer(const char *line)
{
    if (strncmp(line, "entry ", 6) == 0)
        tell_entry(line + 6);
    else if (strncmp(line, "places ", 7) == 0)
        tell_places(line + 7);
    else if (strncmp(line, "read ", 5) == 0)
        tell_whole(line + 5);
    else
        stop("a line that is not entry, places or read");
}

int main(void)
{
    char *line = NULL;
    size_t size = 0;
    ssize_t length;
    while ((length = getline(&line, &size, stdin)) > 0) {
        if (line[length - 1] == '\n')
            line[--length] = '\0';
        if (strlen(line) != (size_t)length)
            stop("a byte 0");
        answer(line);
    }
    if (ferror(stdin))
        stop("standard input could not be read");
    if (fflush(stdout) != 0)
        stop("standard output could not be written");
    free(line);
    return 0;
}
