#include "entry.h"
#include "plain_entry.h"

size_t read_events(const uint8_t *string, size_t length, uint64_t *mixed) {
    size_t count = 0;
    plain_entry e = plain_entry_at(string, length, 0);
    for (; e.found; e = plain_entry_at(string, length, e.next)) {
        *mixed = mix(*mixed, e.source, string + e.from, e.next - e.from);
        count++;
    }
    return e.number == 0 ? count : 0;
}
