/* WORK COUNT: makes a pool's byte string of 1,024 events, reads it COUNT times with the implementation linked in, and
   prints the seconds and a number made of the events. longest: events of 32 bytes; shortest: of 1 byte. */
#include "entry.h"
#include "numbers.h"
#include "timing.h"
#include <stdio.h>
#include <stdlib.h>
#include <string.h>

enum { EVENTS = 1024, HEADER = 3, DATA = 32 };

static uint8_t string[EVENTS * (HEADER + DATA)];

/* Its length. */
static size_t make_string(uint8_t size) {
    size_t length = 0;
    for (size_t i = 0; i < EVENTS; i++) {
        pick(string + length, HEADER + size);
        string[length + 2] = size;
        length += HEADER + size;
    }
    return length;
}

int main(int argc, char **argv) {
    uint64_t mixed = 1;
    if (argc != 3) return 2;
    const size_t length = make_string(strcmp(argv[1], "longest") == 0 ? DATA : 1);
    const size_t count = strtoul(argv[2], NULL, 10);
    double start = now();
    for (size_t i = 0; i < count; i++)
        if (read_events(string, length, &mixed) != EVENTS) exit(1);
    printf("%.6f %016llx\n", now() - start, (unsigned long long)mixed);
    return 0;
}
