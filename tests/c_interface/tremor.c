/* The README's example: 48 bytes drawn from a seed with the generator alone. */
#include "fortuna.h"

#include <stdio.h>

int main(void)
{
    static const uint8_t seed[] = "synthetic tremor, run 17";
    fortuna_generator state = fortuna_generator_new();
    uint8_t bytes[48];
    if (fortuna_generator_reseed_at(&state, seed, sizeof seed - 1) != FORTUNA_DONE)
        return 1;
    if (fortuna_generator_request_at(&state, bytes, sizeof bytes) != FORTUNA_DONE)
        return 1;
    fwrite(bytes, 1, sizeof bytes, stdout);
    return 0;
}
