/* Call logs of both kinds in plain C: the same call, refusals and answers as the proved library's fortuna_convert has,
   written the usual way. */
#ifndef PLAIN_CONVERT_H
#define PLAIN_CONVERT_H

#include <stdbool.h>
#include <stddef.h>
#include <stdint.h>

/* 0, 16, 43 or 46; the line that was refused, from 1, and 0 where none was; and how many bytes were written. */
typedef struct {
    uint32_t number;
    size_t line, written;
} plain_conversion;

/* To events by frame 05 where wide is set, else by frame 01. The two may not overlap. */
plain_conversion plain_convert(const uint8_t *log, size_t length, bool wide, uint8_t *out, size_t room);

#endif
