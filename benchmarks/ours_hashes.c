#include "fortuna.h"
#include "work.h"
#include <string.h>

void work_sha256(const uint8_t *data, size_t length, uint8_t digest[32]) {
    fortuna_sha256(data, length, digest);
}

void work_sha_d256(size_t count, uint8_t message[32]) {
    for (size_t i = 0; i < count; i++) {
        uint8_t digest[32];
        fortuna_sha_d256(message, 32, digest);
        memcpy(message, digest, 32);
    }
}
