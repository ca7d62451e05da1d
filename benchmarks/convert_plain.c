#include "convert.h"
#include "plain_convert.h"

size_t convert(const uint8_t *log, size_t length, bool wide, uint8_t *out, size_t room) {
    plain_conversion c = plain_convert(log, length, wide, out, room);
    return c.number == 0 ? c.written : 0;
}
