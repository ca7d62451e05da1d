/* Counts requests on one key in a real run, from the fresh state to beyond where the number stops, and then past a pool
   reseed. Scripts and single states set the number; here it grows by calls alone. */
#include "fortuna.h"

#include <stdio.h>
#include <stdlib.h>

enum { MOST = 65535, BEYOND = 10, SEED = 64 };

static void expect(const fortuna_state *state, uint32_t number, unsigned long expected)
{
    if (number == FORTUNA_DONE && state->key_requests == expected)
        return;
    printf("c_interface: number %u, %u requests on the key; expected 0, and %lu requests\n", (unsigned)number,
        (unsigned)state->key_requests, expected);
    exit(1);
}

int main(void)
{
    fortuna_state state = fortuna_new();
    uint8_t seed[SEED] = {1};
    expect(&state, FORTUNA_DONE, 0);
    expect(&state, fortuna_update(&state, 0, seed, sizeof seed).number, 1);
    for (unsigned long made = 2; made <= MOST + BEYOND; made++)
        expect(&state, fortuna_request(&state, 0, seed, 0).number, made < MOST ? made : MOST);
    for (int i = 0; i < 2; i++)
        expect(&state, fortuna_event(&state, 1, 0, seed, 32), MOST);
    expect(&state, fortuna_request(&state, 0, seed, 0).number, 1);
    expect(&state, fortuna_request(&state, 0, seed, 0).number, 2);
    printf("c_interface: %d requests on one key, counted up to %d; after a pool reseed from 1 again\n", MOST + BEYOND, MOST);
    return 0;
}
