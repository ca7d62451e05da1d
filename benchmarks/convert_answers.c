/* COUNT LOG...: holds the plain C to the proved library on conversions to both kinds of each log: whole, with much and
   with little room, each of its lines by itself, and COUNT pieces of it with some characters changed. Answers and
   buffers must be the same. */
#include "fortuna.h"
#include "numbers.h"
#include "plain_convert.h"
#include <stdio.h>
#include <stdlib.h>
#include <string.h>

enum { MOST = 1 << 20, ROOM = 2 * MOST, PIECE = 1000 };

static uint8_t log_text[MOST], out[ROOM], plain_out[ROOM], piece[PIECE];

static void failed(const char *why) {
    fprintf(stderr, "convert_answers: %s\n", why);
    exit(1);
}

/* How many bytes were written. */
static size_t same(const uint8_t *log, size_t length, bool wide, size_t room) {
    memset(out, '?', room);
    memset(plain_out, '?', room);
    const fortuna_conversion ours = fortuna_convert(log, length, wide, out, room);
    const plain_conversion plain = plain_convert(log, length, wide, plain_out, room);
    if (ours.number != plain.number || ours.line != plain.line || ours.written != plain.written
        || memcmp(out, plain_out, room) != 0)
        failed("ours and the plain C differ");
    return ours.written;
}

/* To both kinds, with room for all, with a byte less than it takes, and with less still. */
static void compare(const uint8_t *log, size_t length) {
    for (int wide = 0; wide < 2; wide++) {
        const size_t written = same(log, length, wide, 2 * length);
        if (written > 0) same(log, length, wide, written - 1);
        same(log, length, wide, below((uint32_t)written + 1));
    }
}

static void compare_lines(size_t length) {
    for (size_t at = 0, end; at < length; at = end) {
        const uint8_t *feed = memchr(log_text + at, '\n', length - at);
        end = feed ? (size_t)(feed - log_text) + 1 : length;
        compare(log_text + at, end - at);
        compare(log_text + at, end - at - (feed != NULL));
    }
}

/* From the start of a line, and up to three characters changed, as a rule into those that frames are made of. */
static void compare_piece(size_t length) {
    static const uint8_t characters[] = "0012345678ABCDEF\n\n\r/:@Gaf \xff";
    size_t at = below((uint32_t)length + 1);
    while (at > 0 && log_text[at - 1] != '\n') at--;
    const size_t left = length - at, size = below((left < PIECE ? (uint32_t)left : PIECE) + 1);
    memcpy(piece, log_text + at, size);
    for (uint32_t changes = size > 0 ? below(4) : 0; changes > 0; changes--)
        piece[below(below(2) || size < 8 ? (uint32_t)size : 8)] = characters[below(sizeof characters)];
    compare(piece, size);
}

static size_t read_log(const char *name) {
    FILE *file = fopen(name, "rb");
    if (!file) failed("a log can't be read");
    const size_t length = fread(log_text, 1, sizeof log_text, file);
    if (ferror(file) || length == sizeof log_text) failed("a log can't be read, or is too long");
    fclose(file);
    return length;
}

int main(int argc, char **argv) {
    if (argc < 3) return 2;
    for (int i = 2; i < argc; i++) {
        const size_t length = read_log(argv[i]);
        compare(log_text, length);
        compare_lines(length);
        for (size_t count = strtoul(argv[1], NULL, 10); count > 0; count--) compare_piece(length);
    }
    return 0;
}
