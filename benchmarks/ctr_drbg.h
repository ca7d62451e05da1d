/* The CTR_DRBG calls that are measured; a file for each implementation defines them, on a state of its own. Each
   returns whether the call was made; one that the implementation lacks is not. No pointer is null, even to no bytes:
   OpenSSL would then take a personalization string of its own. */
#ifndef CTR_DRBG_H
#define CTR_DRBG_H

#include <stdbool.h>
#include <stddef.h>
#include <stdint.h>

/* The length of an entropy input, and the most bytes of every other input. */
enum { SEED_LENGTH = 48 };

/* The entropy input of the seedings that follow. */
bool drbg_entropy(const uint8_t input[SEED_LENGTH]);

/* A first seeding, or one that starts anew, with up to 48 bytes of personalization string. */
bool drbg_instantiate(const uint8_t *personalization, size_t length);

/* A reseed with up to 48 bytes of additional input. */
bool drbg_reseed(const uint8_t *additional, size_t length);

/* A request of 1 to 65,536 bytes with up to 48 bytes of additional input. */
bool drbg_request(uint8_t *out, size_t length, const uint8_t *additional, size_t additional_length);

#endif
