/* Buffers that are lent to a call, and hexadecimal, for the programs that make calls as they are told. */
#ifndef LENT_H
#define LENT_H

#include <stdint.h>
#include <stdio.h>
#include <stdlib.h>
#include <string.h>

/* Bytes before and after a buffer, by which a call that writes outside it is found out. */
enum { GUARD = 16, GUARD_BYTE = 0xa5 };

static inline _Noreturn void stop(const char *why)
{
    fprintf(stderr, "c_interface: %s\n", why);
    exit(1);
}

/* A buffer of zeros, aligned for any type. */
static inline void *lend(size_t length)
{
    uint8_t *area = malloc(length + 2 * GUARD);
    if (!area)
        stop("no memory");
    memset(area, GUARD_BYTE, length + 2 * GUARD);
    return memset(area + GUARD, 0, length);
}

static inline void give_back(void *buffer, size_t length)
{
    uint8_t *area = (uint8_t *)buffer - GUARD;
    for (size_t i = 0; i < GUARD; i++)
        if (area[i] != GUARD_BYTE || area[GUARD + length + i] != GUARD_BYTE)
            stop("a call wrote outside its buffer");
    free(area);
}

static inline uint8_t digit(char c)
{
    if (c >= '0' && c <= '9')
        return (uint8_t)(c - '0');
    if (c < 'a' || c > 'f')
        stop("a line that is not hexadecimal");
    return (uint8_t)(c - 'a' + 10);
}

/* The bytes that so many digits stand for. They may take the place of the digits. */
static inline void decode(const char *digits, size_t length, uint8_t *bytes)
{
    for (size_t i = 0; i + 1 < length; i += 2)
        bytes[i / 2] = (uint8_t)(digit(digits[i]) << 4 | digit(digits[i + 1]));
}

static inline void print_bytes(const uint8_t *bytes, size_t length)
{
    for (size_t i = 0; i < length; i++) {
        putchar("0123456789abcdef"[bytes[i] >> 4]);
        putchar("0123456789abcdef"[bytes[i] & 15]);
    }
}

#endif
