#include "convert.h"
#include "fortuna.h"

size_t convert(const uint8_t *log, size_t length, bool wide, uint8_t *out, size_t room) {
    fortuna_conversion c = fortuna_convert(log, length, wide, out, room);
    return c.number == FORTUNA_DONE ? c.written : 0;
}
