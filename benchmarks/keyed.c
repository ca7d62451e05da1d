/* WORK COUNT: makes COUNT calls of the kind WORK, with pools chosen by key, with the implementation linked in, and
   prints the seconds and the bytes it ended with. event: 32 bytes, at 31 steps in turn that empty no pool; emptying:
   the same at steps that each empty one, by a reseed from it; request: 16 bytes; update: a seed. Before, a seed was
   taken and 96 events were made. A request of 32 bytes at the end shows the key. */
#include "keyed.h"
#include "timing.h"
#include <stdio.h>
#include <stdlib.h>
#include <string.h>

enum { PERIOD = 32, BEFORE = 3 * PERIOD, SMALL = 16, SEED = 64 };

static void made(bool call) {
    if (call) return;
    fprintf(stderr, "keyed: a call was not made\n");
    exit(1);
}

/* An event with bytes of its own. */
static void event(size_t number, uint64_t step) {
    uint8_t data[32];
    memset(data, 0x5a, sizeof data);
    memcpy(data, &number, sizeof number);
    made(keyed_event(step, data, step > 0 && step % PERIOD == 0));
}

/* At the steps between two multiples of 32. */
static void events(size_t count) {
    for (size_t i = 0; i < count; i++) event(BEFORE + i, BEFORE + 1 + i % (PERIOD - 1));
}

static void emptyings(size_t count) {
    for (size_t i = 0; i < count; i++) event(BEFORE + i, BEFORE + PERIOD * (1 + i));
}

static void requests(size_t count, uint8_t *out, size_t length) {
    for (size_t i = 0; i < count; i++) made(keyed_request(out, length));
}

static void updates(size_t count, uint8_t seed[SEED]) {
    for (size_t i = 0; i < count; i++) made(keyed_update(seed));
}

/* The first seed has bytes that differ: a blank one would be refused. */
static void prepare(uint8_t seed[SEED]) {
    for (int i = 0; i < SEED; i++) seed[i] = (uint8_t)i;
    made(keyed_new(seed));
    made(keyed_update(seed));
    for (size_t i = 0; i < BEFORE; i++) event(i, i);
}

/* Returns the seconds. */
static double perform(const char *work, size_t count, uint8_t buffer[SEED]) {
    double start = now();
    if (strcmp(work, "event") == 0) events(count);
    else if (strcmp(work, "emptying") == 0) emptyings(count);
    else if (strcmp(work, "request") == 0) requests(count, buffer, SMALL);
    else updates(count, buffer);
    return now() - start;
}

int main(int argc, char **argv) {
    uint8_t buffer[SEED], key[32];
    uint32_t sum[8] = {0};
    if (argc != 3) return 2;
    prepare(buffer);
    double seconds = perform(argv[1], strtoul(argv[2], NULL, 10), buffer);
    requests(1, key, sizeof key);
    pool_sum(sum);
    printf("%.6f ", seconds);
    for (int i = 0; i < 8; i++) printf("%08x", sum[i]);
    for (int i = 0; i < SEED; i++) printf("%02x", buffer[i]);
    for (int i = 0; i < 32; i++) printf("%02x", key[i]);
    printf("\n");
    return 0;
}
