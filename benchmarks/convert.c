/* WORK COUNT: makes a log of 1,024 events of 32 bytes, converts it COUNT times with the implementation linked in, and
   prints the seconds and a number made of the bytes it ended with. widen: from frame 01 to 05; narrow: from 05 to 01;
   keep: 01 where 01 is wanted, so that nothing changes. */
#include "convert.h"
#include "numbers.h"
#include "timing.h"
#include <stdio.h>
#include <stdlib.h>
#include <string.h>

enum { LINES = 1024, DATA = 32, LONGEST = 73 };

static uint8_t log_text[LINES * LONGEST], out[LINES * LONGEST];

/* Its length. Sources below 256, so that either frame can carry them. */
static size_t make_log(bool wide) {
    size_t length = 0;
    for (size_t i = 0; i < LINES; i++) {
        char line[LONGEST + 1];
        const uint32_t source = below(256), pool = below(32);
        size_t size = (size_t)sprintf(line, "%s%02X%02X", wide ? "0500" : "01", source, pool);
        for (int j = 0; j < DATA; j++) size += (size_t)sprintf(line + size, "%02X", below(256));
        line[size++] = '\n';
        memcpy(log_text + length, line, size);
        length += size;
    }
    return length;
}

int main(int argc, char **argv) {
    uint64_t mixed = 1;
    if (argc != 3) return 2;
    const bool wide = strcmp(argv[1], "widen") == 0;
    const size_t count = strtoul(argv[2], NULL, 10), length = make_log(strcmp(argv[1], "narrow") == 0);
    size_t written = 0;
    double start = now();
    for (size_t i = 0; i < count; i++) {
        written = convert(log_text, length, wide, out, sizeof out);
        if (written == 0) exit(1);
    }
    double seconds = now() - start;
    for (size_t i = 0; i < sizeof out; i++) mixed = (mixed ^ out[i]) * UINT64_C(0x100000001b3);
    printf("%.6f %zu/%016llx\n", seconds, written, (unsigned long long)mixed);
    return 0;
}
