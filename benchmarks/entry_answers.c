/* COUNT: holds the plain C to the proved library on COUNT strings of up to 8 events, at every place, the end and past
   it. Of most strings some bytes are changed, or the last ones are left out. Answers must be the same. */
#include "fortuna.h"
#include "numbers.h"
#include "plain_entry.h"
#include <stdio.h>
#include <stdlib.h>

enum { EVENTS = 8, HEADER = 3, DATA = 32, MOST = EVENTS * (HEADER + DATA) };

static uint8_t string[MOST];

static void compare(size_t length, size_t place) {
    const fortuna_entry ours = fortuna_entry_at(string, length, place);
    const plain_entry plain = plain_entry_at(string, length, place);
    if (ours.number == plain.number && ours.source == plain.source && ours.found == plain.found
        && ours.place == plain.place && ours.from == plain.from && ours.next == plain.next)
        return;
    fprintf(stderr, "entry_answers: ours and the plain C differ\n");
    exit(1);
}

/* Its length. Lengths of data that no event has are 0 and 33. */
static size_t make_string(void) {
    size_t length = 0;
    for (uint32_t events = below(EVENTS + 1); events > 0; events--) {
        const uint32_t size = 1 + (below(2) ? below(DATA) : (DATA - 1) * below(2));
        pick(string + length, HEADER + size);
        string[length + 2] = (uint8_t)size;
        length += HEADER + size;
    }
    for (uint32_t changes = length > 0 ? below(4) : 0; changes > 0; changes--)
        string[below((uint32_t)length)] = (uint8_t)(below(2) ? below(DATA + 2) : (DATA + 1) * below(2));
    return below(2) ? length : below((uint32_t)length + 1);
}

int main(int argc, char **argv) {
    if (argc != 2) return 2;
    for (size_t count = strtoul(argv[1], NULL, 10); count > 0; count--) {
        const size_t length = make_string();
        for (size_t place = 0; place <= length + HEADER + DATA; place++) compare(length, place);
        for (size_t back = 0; back <= HEADER + DATA; back++) compare(length, SIZE_MAX - back);
    }
    return 0;
}
