/* WORK COUNT: does COUNT units of WORK with the library linked in, and prints the seconds and the bytes it ended with.
   sha256: one message of COUNT MiB; sha_d256: COUNT times D of 32 bytes; aes256: COUNT blocks; expand: COUNT key
   expansions. */
#include "timing.h"
#include "work.h"
#include <stdio.h>
#include <stdlib.h>
#include <string.h>

static double hash(size_t length, uint8_t result[32]) {
    uint8_t *data = malloc(length);
    if (!data) exit(2);
    memset(data, 0x5a, length);
    double start = now();
    work_sha256(data, length, result);
    double seconds = now() - start;
    free(data);
    return seconds;
}

static double hash_with_zeros(size_t count, uint8_t result[32]) {
    double start = now();
    work_sha_d256(count, result);
    return now() - start;
}

static double encipher(size_t count, uint8_t result[32]) {
    uint8_t key[32] = {0};
    double start = now();
    work_aes256(key, count, result);
    return now() - start;
}

static double expand(size_t count, uint8_t result[32]) {
    double start = now();
    work_expand(result, count);
    return now() - start;
}

int main(int argc, char **argv) {
    if (argc != 3) return 2;
    size_t count = strtoul(argv[2], NULL, 10);
    uint8_t result[32] = {0};
    double seconds = strcmp(argv[1], "sha256") == 0     ? hash(count << 20, result)
                     : strcmp(argv[1], "sha_d256") == 0 ? hash_with_zeros(count, result)
                     : strcmp(argv[1], "aes256") == 0   ? encipher(count, result)
                                                        : expand(count, result);
    printf("%.6f ", seconds);
    for (int i = 0; i < 32; i++) printf("%02x", result[i]);
    printf("\n");
    return 0;
}
