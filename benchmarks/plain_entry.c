#include "plain_entry.h"

enum { HEADER = 3, MOST = 32 };

plain_entry plain_entry_at(const uint8_t *string, size_t length, size_t place)
{
    const plain_entry end = {0, 0, false, place, place, place}, refused = {44, 0, false, place, place, place};
    if (place == length) return end;
    if (place > length || length - place < HEADER) return refused;
    const uint8_t *at = string + place;
    const size_t size = at[2];
    if (size == 0 || size > MOST || size > length - place - HEADER) return refused;
    return (plain_entry){0, at[0] | (uint32_t)at[1] << 8, true, place, place + HEADER, place + HEADER + size};
}
