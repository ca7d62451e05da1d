/* WORK COUNT: seeds the CTR_DRBG linked in, makes COUNT calls of the kind WORK, and prints the seconds and a number
   made of the bytes it ended with. request: 16 bytes; kilobyte: 1,024 bytes; large: 65,536 bytes; additional: 16 bytes
   with 48 bytes of additional input; reseed: with no additional input, and a request after the last; mixed: seedings,
   reseeds and requests with inputs of all lengths, and the number is made of the bytes of every request. */
#include "ctr_drbg.h"
#include "numbers.h"
#include "timing.h"
#include <stdio.h>
#include <stdlib.h>
#include <string.h>

enum { SMALL = 16, KILOBYTE = 1024, LARGE = 65536 };

static const uint8_t none[1];
static uint64_t mixed = 1;

static void made(bool call) {
    if (call) return;
    fprintf(stderr, "ctr_drbg: a call was not made\n");
    exit(1);
}

static void mix(const uint8_t *bytes, size_t count) {
    for (size_t i = 0; i < count; i++) mixed = (mixed ^ bytes[i]) * UINT64_C(0x100000001b3);
}

static void requests(size_t count, uint8_t *out, size_t length, size_t additional_length) {
    uint8_t additional[SEED_LENGTH];
    memset(additional, 0x5a, sizeof additional);
    for (size_t i = 0; i < count; i++) {
        memcpy(additional, &i, sizeof i);
        made(drbg_request(out, length, additional, additional_length));
    }
}

/* From one entropy input: the state before goes into each, so that the seeds differ. */
static void reseeds(size_t count) {
    for (size_t i = 0; i < count; i++) made(drbg_reseed(none, 0));
}

static void pick_entropy(void) {
    uint8_t input[SEED_LENGTH];
    pick(input, sizeof input);
    made(drbg_entropy(input));
}

/* As often as not no other input; lengths about a block's borders, and some long ones. */
static void of_all_kinds(size_t count, uint8_t *out) {
    uint8_t other[SEED_LENGTH];
    for (size_t i = 0; i < count; i++) {
        const uint32_t kind = below(8);
        const size_t other_length = below(2) ? below(SEED_LENGTH + 1) : 0;
        const size_t length = below(8) ? 1 + below(100) : LARGE - below(40);
        pick(other, other_length);
        if (kind < 2) pick_entropy();
        if (kind == 0) made(drbg_instantiate(other, other_length));
        else if (kind == 1) made(drbg_reseed(other, other_length));
        else {
            made(drbg_request(out, length, other, other_length));
            mix(out, length);
        }
    }
}

/* Returns the seconds. */
static double perform(const char *work, size_t count, uint8_t buffer[LARGE]) {
    double start = now();
    if (strcmp(work, "request") == 0) requests(count, buffer, SMALL, 0);
    else if (strcmp(work, "kilobyte") == 0) requests(count, buffer, KILOBYTE, 0);
    else if (strcmp(work, "large") == 0) requests(count, buffer, LARGE, 0);
    else if (strcmp(work, "additional") == 0) requests(count, buffer, SMALL, SEED_LENGTH);
    else if (strcmp(work, "mixed") == 0) of_all_kinds(count, buffer);
    else {
        reseeds(count);
        requests(1, buffer, SMALL, 0);
    }
    return now() - start;
}

int main(int argc, char **argv) {
    static uint8_t buffer[LARGE];
    if (argc != 3) return 2;
    pick_entropy();
    made(drbg_instantiate(none, 0));
    double seconds = perform(argv[1], strtoul(argv[2], NULL, 10), buffer);
    mix(buffer, sizeof buffer);
    printf("%.6f %016llx\n", seconds, (unsigned long long)mixed);
    return 0;
}
