/* The log on standard input, run in one call; the answers go to standard output. */
#include "fortuna.h"

#include <stdio.h>
#include <stdlib.h>

enum { MOST = 1 << 24 };

int main(void)
{
    static uint8_t log[MOST], out[MOST];
    size_t length = fread(log, 1, sizeof log, stdin);
    size_t stored = fortuna_log(log, length, out, sizeof out);
    if (length == sizeof log || stored == sizeof out) {
        fprintf(stderr, "log: too long for this test\n");
        return 1;
    }
    /* With less room the first characters are stored, and nothing behind them. */
    uint8_t few[5] = {0};
    if (fortuna_log(log, length, few, 4) != (stored < 4 ? stored : 4) || few[4] != 0) {
        fprintf(stderr, "log: the room is not kept to\n");
        return 1;
    }
    return fwrite(out, 1, stored, stdout) == stored ? 0 : 1;
}
