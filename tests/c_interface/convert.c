/* Makes the conversions of a script on standard input and prints an answer for each line. convert_script.py, beside
   this, says how lines and answers are laid out:

       convert KIND ROOM LOG

   What a call must not do ends the program with status 1: write outside the buffer that it is lent, say that it wrote
   more than there is room for, or change the log. So does a line that is none of these. */
#define _POSIX_C_SOURCE 200809L
#include "fortuna.h"
#include "lent.h"

#include <inttypes.h>

enum { MOST_ROOM = 1 << 26 }; /* so that a slip in ROOM takes no gigabytes */

/* The numbers of 02 by their names. */
_Static_assert(FORTUNA_DONE == 0, "every line was converted");
_Static_assert(FORTUNA_NO_FRAME == 16, "a line that is no frame");
_Static_assert(FORTUNA_LARGE_SOURCE == 43, "a source above 255 where 01 is wanted");
_Static_assert(FORTUNA_NO_ROOM == 46, "no room for a line and its end");

/* ---- logs in a line of a script */

/* The byte that the text begins with, which is left behind. */
static uint8_t take(const char **text)
{
    char c = *(*text)++;
    uint8_t byte = (uint8_t)c;
    if (c == '/')
        return '\n';
    if (c == '%') {
        if (!(*text)[0] || !(*text)[1])
            stop("a byte that is cut short");
        decode(*text, 2, &byte);
        *text += 2;
    }
    return byte;
}

/* Stores the log that the text stands for, or only counts its bytes where there is no place to store them. */
static size_t take_log(const char *text, uint8_t *log)
{
    size_t length = 0;
    if (strcmp(text, "-") == 0)
        return 0;
    for (; *text; length++) {
        uint8_t byte = take(&text);
        if (log)
            log[length] = byte;
    }
    return length;
}

static void print_log(const uint8_t *log, size_t length)
{
    if (length == 0)
        putchar('-');
    for (size_t i = 0; i < length; i++) {
        uint8_t byte = log[i];
        if (byte == '\n')
            putchar('/');
        else if ((byte >= '0' && byte <= '9') || (byte >= 'A' && byte <= 'Z') || (byte >= 'a' && byte <= 'z'))
            putchar(byte);
        else
            printf("%%%02x", byte);
    }
}

/* ---- the call */

/* What a lent buffer holds at a place before the call: no byte of a frame, and the next one is another. */
static uint8_t before(size_t place)
{
    return (uint8_t)(128 + place % 101);
}

static bool kept(const uint8_t *out, size_t from, size_t room)
{
    for (size_t i = from; i < room; i++)
        if (out[i] != before(i))
            return false;
    return true;
}

static void convert(bool wide, size_t room, const char *text)
{
    size_t length = take_log(text, NULL);
    uint8_t *log = lend(length), *same = lend(length), *out = lend(room);
    take_log(text, log);
    take_log(text, same);
    for (size_t i = 0; i < room; i++)
        out[i] = before(i);
    fortuna_conversion a = fortuna_convert(log, length, wide, out, room);
    if (memcmp(log, same, length) != 0)
        stop("a call changed the log lent");
    if (a.written > room)
        stop("a call says that it wrote more than there is room for");
    printf("%" PRIu32 " %zu %zu ", a.number, a.line, a.written);
    print_log(out, a.written);
    printf(" %s\n", kept(out, a.written, room) ? "kept" : "changed");
    give_back(log, length);
    give_back(same, length);
    give_back(out, room);
}

static void answer(const char *line)
{
    char kind[3];
    size_t room;
    int log = 0;
    if (sscanf(line, "convert %2s %zu %n", kind, &room, &log) != 2 || log == 0 || !line[log] || strchr(line + log, ' '))
        stop("a line that is not convert with three words");
    if (strcmp(kind, "01") != 0 && strcmp(kind, "05") != 0)
        stop("a kind that is neither 01 nor 05");
    if (room > MOST_ROOM)
        stop("a room above 67108864 bytes");
    convert(strcmp(kind, "05") == 0, room, line + log);
}

int main(void)
{
    char *line = NULL;
    size_t size = 0;
    ssize_t length;
    while ((length = getline(&line, &size, stdin)) > 0) {
        if (line[length - 1] == '\n')
            line[--length] = '\0';
        if (strlen(line) != (size_t)length)
            stop("a byte 0");
        answer(line);
    }
    if (ferror(stdin))
        stop("standard input could not be read");
    if (fflush(stdout) != 0)
        stop("standard output could not be written");
    free(line);
    return 0;
}
