/* The reader of a pool's byte string that is measured; a file for each implementation defines it. */
#ifndef ENTRY_H
#define ENTRY_H

#include <stddef.h>
#include <stdint.h>

/* Reads a whole string, a call for each event and one at the end, and mixes each event into the number at mixed.
   Returns how many events there were, 0 where a place was refused. */
size_t read_events(const uint8_t *string, size_t length, uint64_t *mixed);

static inline uint64_t mix(uint64_t mixed, uint32_t source, const uint8_t *data, size_t size) {
    return (mixed ^ source ^ data[0] ^ size) * UINT64_C(0x100000001b3);
}

#endif
