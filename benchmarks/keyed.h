/* The calls with pools chosen by key that are measured; a file for each implementation defines them, on a state of its
   own. Each returns whether the call was made. */
#ifndef KEYED_H
#define KEYED_H

#include <stdbool.h>
#include <stddef.h>
#include <stdint.h>

/* The fresh start under a scheduler key. */
bool keyed_new(const uint8_t scheduler_key[32]);

/* An event of 32 bytes from source 0 at a step number, which is set before. empties: the step empties a pool. */
bool keyed_event(uint64_t step, const uint8_t data[32], bool empties);

bool keyed_request(uint8_t *out, size_t length);
bool keyed_update(uint8_t seed[64]);

/* The running hashes of the 32 pools, added word by word. */
void pool_sum(uint32_t sum[8]);

#endif
