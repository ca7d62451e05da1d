#include "plain_convert.h"
#include <string.h>

/* The fewest and the most characters of a line by frame 01 to 05. */
static const struct {
    size_t fewest, most;
} sizes[] = {{6, 256}, {14, 14}, {10, 256}, {10, 10}, {8, 258}};

static const bool is_digit[256] = {
    ['0'] = true, ['1'] = true, ['2'] = true, ['3'] = true, ['4'] = true, ['5'] = true, ['6'] = true, ['7'] = true,
    ['8'] = true, ['9'] = true, ['A'] = true, ['B'] = true, ['C'] = true, ['D'] = true, ['E'] = true, ['F'] = true,
};

static bool are_digits(const uint8_t *text, size_t length)
{
    for (size_t i = 0; i < length; i++)
        if (!is_digit[text[i]]) return false;
    return true;
}

/* 1 to 5; 0 for a line that is no frame. The digits are checked where they stand: no byte is worked out. */
static int frame_of(const uint8_t *text, size_t length)
{
    if (length < 2 || length % 2 != 0 || text[0] != '0' || text[1] < '1' || text[1] > '5') return 0;
    const int frame = text[1] - '0';
    if (length < sizes[frame - 1].fewest || length > sizes[frame - 1].most) return 0;
    return are_digits(text, length) ? frame : 0;
}

plain_conversion plain_convert(const uint8_t *log, size_t length, bool wide, uint8_t *out, size_t room)
{
    size_t at = 0, written = 0;
    for (size_t line = 1; at < length; line++) {
        const uint8_t *text = log + at;
        const uint8_t *feed = memchr(text, '\n', length - at);
        const size_t size = feed ? (size_t)(feed - text) : length - at;
        const size_t used = size + (feed != NULL);
        const int frame = frame_of(text, size);
        size_t skipped = 0, front = 0; /* characters that others stand for, and how many those are */
        if (frame == 0) return (plain_conversion){16, line, written};
        if (wide && frame == 1) {
            skipped = 2;
            front = 4;
        } else if (!wide && frame == 5) {
            if (text[2] != '0' || text[3] != '0') return (plain_conversion){43, line, written};
            skipped = 4;
            front = 2;
        }
        if (used - skipped + front > room - written) return (plain_conversion){46, line, written};
        memcpy(out + written, wide ? "0500" : "01", front);
        memcpy(out + written + front, text + skipped, used - skipped);
        written += used - skipped + front;
        at += used;
    }
    return (plain_conversion){0, 0, written};
}
