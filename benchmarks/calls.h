/* The Fortuna calls that are measured; a file for each implementation defines them, on a state of its own. Each returns
   whether the call was made; one that the implementation lacks is not. */
#ifndef CALLS_H
#define CALLS_H

#include <stdbool.h>
#include <stddef.h>
#include <stdint.h>

/* A state before anything. */
bool call_new(void);

/* An event of 32 bytes from source 0. An implementation that picks pools itself takes them in turn from pool 0. */
bool call_event(uint32_t pool, const uint8_t data[32]);

/* A reseed from the pools, made where pool 0 has had two events since the last. */
bool call_reseed(void);

/* A request with no reseed due. */
bool call_request(uint8_t *out, size_t length);

/* A seed update with no reseed due. */
bool call_update(uint8_t seed[64]);

/* A list of so many quotas, at most 64, with nothing spent and with room for every event measured. The sources rise
   from 0, or fall to it. */
bool call_quotas(size_t records, bool falling);

/* As call_event from a source of the list, and as call_request, each with the list. */
bool call_metered_event(uint32_t source, uint32_t pool, const uint8_t data[32]);
bool call_metered_request(uint8_t *out, size_t length);

/* The running hashes of the 32 pools, added word by word. */
void pool_sum(uint32_t sum[8]);

#endif
