/* The conversion of call logs that is measured; a file for each implementation defines it. */
#ifndef CONVERT_H
#define CONVERT_H

#include <stdbool.h>
#include <stddef.h>
#include <stdint.h>

/* To events by frame 05 where wide is set, else by frame 01. Returns how many bytes were written, 0 where a line was
   refused. */
size_t convert(const uint8_t *log, size_t length, bool wide, uint8_t *out, size_t room);

#endif
