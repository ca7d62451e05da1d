/* WORK COUNT: makes COUNT calls of the kind WORK with the implementation linked in, and prints the seconds and the
   bytes it ended with. event: 32 bytes, the 32 pools in turn; request: 16 bytes; large: a request of 1 MiB; update: a
   seed; reseed: two events for pool 0 and a reseed from the pools, and a request after the last; those in `lists`:
   events or requests as above with a list of quotas, the events from its sources in turn. Before, every pool has had
   two events, a reseed has used pool 0, and every pool has had a third event. */
#include "calls.h"
#include "timing.h"
#include <stdio.h>
#include <stdlib.h>
#include <string.h>

enum { POOLS = 32, LARGE = 1048576 };

/* Works with a list of so many records, whose sources rise or fall. */
static const struct {
    const char *work;
    size_t records;
    bool falling, requests;
} lists[] = {
    {"event_1", 1, false, false},
    {"event_rising", 64, false, false},
    {"event_falling", 64, true, false},
    {"request_rising", 64, false, true},
    {"request_falling", 64, true, true},
};
enum { LISTS = sizeof lists / sizeof *lists };

static void made(bool call) {
    if (call) return;
    fprintf(stderr, "calls: a call was not made\n");
    exit(1);
}

/* Events from number first on, each with other bytes. */
static void events(size_t first, size_t count) {
    uint8_t data[32];
    memset(data, 0x5a, sizeof data);
    for (size_t i = first; i < first + count; i++) {
        memcpy(data, &i, sizeof i);
        made(call_event(i % POOLS, data));
    }
}

/* The same with a list, from its sources in turn. */
static void metered_events(size_t first, size_t count, size_t records) {
    uint8_t data[32];
    memset(data, 0x5a, sizeof data);
    for (size_t i = first; i < first + count; i++) {
        memcpy(data, &i, sizeof i);
        made(call_metered_event(i % records, i % POOLS, data));
    }
}

static void requests(size_t count, uint8_t *out, size_t length) {
    for (size_t i = 0; i < count; i++) made(call_request(out, length));
}

static void metered_requests(size_t count, uint8_t *out, size_t length) {
    for (size_t i = 0; i < count; i++) made(call_metered_request(out, length));
}

/* The first seed has bytes that differ: a blank one would be refused. */
static void updates(size_t count, uint8_t seed[64]) {
    for (int i = 0; i < 64; i++) seed[i] = (uint8_t)i;
    for (size_t i = 0; i < count; i++) made(call_update(seed));
}

static void reseeds(size_t count) {
    static const uint8_t data[32];
    for (size_t i = 0; i < count; i++) {
        for (int j = 0; j < 2; j++) made(call_event(0, data));
        made(call_reseed());
    }
}

static void prepare(void) {
    made(call_new());
    events(0, 2 * POOLS);
    made(call_reseed());
    events(2 * POOLS, POOLS);
}

static void with_list(int i, size_t count, uint8_t *out) {
    made(call_quotas(lists[i].records, lists[i].falling));
    if (lists[i].requests) metered_requests(count, out, 16);
    else metered_events(3 * POOLS, count, lists[i].records);
}

/* The place among the works with a list, LISTS where it is none of them. */
static int list_of(const char *work) {
    int i = 0;
    while (i < LISTS && strcmp(work, lists[i].work) != 0) i++;
    return i;
}

/* Returns the seconds. */
static double perform(const char *work, size_t count, uint8_t buffer[LARGE]) {
    int list = list_of(work);
    double start = now();
    if (list < LISTS) with_list(list, count, buffer);
    else if (strcmp(work, "event") == 0) events(3 * POOLS, count);
    else if (strcmp(work, "request") == 0) requests(count, buffer, 16);
    else if (strcmp(work, "large") == 0) requests(count, buffer, LARGE);
    else if (strcmp(work, "update") == 0) updates(count, buffer);
    else {
        reseeds(count);
        requests(1, buffer, 16);
    }
    return now() - start;
}

int main(int argc, char **argv) {
    static uint8_t buffer[LARGE];
    uint32_t sum[8] = {0};
    if (argc != 3) return 2;
    prepare();
    double seconds = perform(argv[1], strtoul(argv[2], NULL, 10), buffer);
    pool_sum(sum);
    printf("%.6f ", seconds);
    for (int i = 0; i < 8; i++) printf("%08x", sum[i]);
    for (int i = 0; i < 32; i++) printf("%02x", buffer[i]);
    printf("\n");
    return 0;
}
