/* convert 05|01 <LOG >CONVERTED

   Converts a call log of any length: events become frames 05, or frames 01. It takes as much memory for a short log as
   for one of gigabytes, and allocates none. bin/convert runs this.

   The library converts a log that is in memory as a whole. Here the log comes in pieces, and each piece is cut after
   its last line feed, so that the library sees whole lines only. What is behind the cut stays for the next piece. A log
   that is cut so becomes the same bytes as the whole one, and the line numbers of the pieces add up.

   Exit status: 0 all lines were converted; 1 a line was refused, and those before it are written; 2 bad arguments,
   or reading or writing failed. */
#define _POSIX_C_SOURCE 200809L
#include "fortuna.h"
#include "streams.h"

#include <inttypes.h>

/* A line becomes at most two characters longer. The shortest event, 6 characters, becomes 8: so 4/3 of a piece, rounded
   up, are always room enough, and FORTUNA_NO_ROOM does not come. */
enum { PIECE = 65536, ROOM = PIECE + (PIECE + 2) / 3 };

static uint8_t piece[PIECE];
static uint8_t out[ROOM];

/* ---- pieces */

/* How many of the bytes are whole lines. */
static size_t whole_lines(const uint8_t *bytes, size_t length)
{
    while (length > 0 && bytes[length - 1] != '\n')
        length--;
    return length;
}

static uint64_t line_feeds(const uint8_t *bytes, size_t length)
{
    uint64_t count = 0;
    for (size_t i = 0; i < length; i++)
        count += bytes[i] == '\n';
    return count;
}

static const char *reason(uint32_t number)
{
    switch (number) {
    case FORTUNA_NO_FRAME:
        return "not a frame";
    case FORTUNA_LARGE_SOURCE:
        return "a source above 255, which frame 01 can't carry";
    default:
        return "no room for the converted line";
    }
}

/* Converts the first bytes of the piece and writes them. before is how many lines the pieces before had. */
static void convert(size_t length, bool wide, uint64_t before)
{
    fortuna_conversion c = fortuna_convert(piece, length, wide, out, sizeof out);
    write_all(out, c.written);
    if (c.number == FORTUNA_DONE)
        return;
    fprintf(stderr, "convert: line %" PRIu64 ": %" PRIu32 ", %s\n", before + c.line, c.number, reason(c.number));
    exit(1);
}

static void convert_log(bool wide)
{
    uint64_t lines = 0;
    size_t held = 0, count; /* bytes at the piece's start that are not converted yet */
    while ((count = read_some(piece + held, sizeof piece - held)) > 0) {
        held += count;
        size_t length = whole_lines(piece, held);
        if (length == 0 && held == sizeof piece)
            length = held; /* a line too long for any frame, which is refused as far as it is here */
        convert(length, wide, lines);
        lines += line_feeds(piece, length);
        held -= length;
        memmove(piece, piece + length, held);
        show_progress(lines, "lines converted");
    }
    convert(held, wide, lines); /* a last line without a line feed */
}

int main(int words, char **word)
{
    speaker = "convert";
    bool wide = words == 2 && strcmp(word[1], "05") == 0;
    if (!wide && (words != 2 || strcmp(word[1], "01") != 0)) {
        fprintf(stderr, "usage: convert 05|01 <LOG >CONVERTED\n");
        return 2;
    }
    convert_log(wide);
    end_output();
    return 0;
}
