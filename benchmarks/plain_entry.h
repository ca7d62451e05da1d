/* A reader of a pool's byte string in plain C: the same call, refusal and answers as the proved library's
   fortuna_entry_at has, written the usual way. */
#ifndef PLAIN_ENTRY_H
#define PLAIN_ENTRY_H

#include <stdbool.h>
#include <stddef.h>
#include <stdint.h>

/* 0 or 44; the event's source; whether an event was found; the place that was asked for; where the event's data start;
   and the next place. Where no event was found the source is 0, and the last two are the place. */
typedef struct {
    uint32_t number, source;
    bool found;
    size_t place, from, next;
} plain_entry;

plain_entry plain_entry_at(const uint8_t *string, size_t length, size_t place);

#endif
