/* The words of a script's line, for the programs that make calls as they are told: numbers, bytes that a call must
   leave as they are, buffers that it fills, and lists of quotas. */
#ifndef WORDS_H
#define WORDS_H

#include "fortuna.h"
#include "lent.h"
#include "quotas.h"

#include <errno.h>
#include <inttypes.h>

enum {
    DIGEST = 32,
    MOST_SHOWN = 128,     /* bytes of an answer; of more the digest is printed */
    MOST_BYTES = 1 << 24, /* of a buffer, so that a slip in a length takes no gigabytes */
};

/* The part before the separator, or all that is left. */
static inline char *part(char **rest, const char *separator)
{
    char *found = *rest;
    size_t length = strcspn(found, separator);
    if (length == 0)
        stop("a word that is missing");
    *rest += length + (found[length] != '\0');
    found[length] = '\0';
    return found;
}

static inline char *word(char **rest)
{
    return part(rest, " ");
}

static inline void no_more(const char *rest)
{
    if (*rest)
        stop("a word too many");
}

static inline uint64_t number(const char *digits, uint64_t most)
{
    char *end;
    errno = 0;
    uint64_t n = strtoull(digits, &end, 10);
    if (*digits < '0' || *digits > '9' || *end || errno || n > most)
        stop("a word that is no number, or one too large");
    return n;
}

static inline uint32_t part_number(char **rest, const char *separator)
{
    return (uint32_t)number(part(rest, separator), UINT32_MAX);
}

/* Bytes of a word: lent, with a copy by which a call that changes them is found out. */
typedef struct {
    uint8_t *lent, *kept;
    size_t length;
} input;

static inline input lend_input(char *text)
{
    char *times = strchr(text, '*');
    if (times)
        *times++ = '\0';
    size_t digits = strcmp(text, "-") == 0 ? 0 : strlen(text);
    if (digits % 2 != 0 || (times && digits != 2))
        stop("bytes with a digit too few or too many");
    size_t length = times ? (size_t)number(times, MOST_BYTES) : digits / 2;
    input in = {lend(length), lend(length), length};
    if (times) {
        uint8_t byte;
        decode(text, digits, &byte);
        memset(in.lent, byte, length);
    } else {
        decode(text, digits, in.lent);
    }
    memcpy(in.kept, in.lent, length);
    return in;
}

/* Of bytes that a call may change. */
static inline void drop_input(input in)
{
    give_back(in.lent, in.length);
    give_back(in.kept, in.length);
}

static inline bool is_kept(input in)
{
    return memcmp(in.lent, in.kept, in.length) == 0;
}

static inline void give_back_input(input in)
{
    if (!is_kept(in))
        stop("a call changed an input");
    drop_input(in);
}

static inline void take_bytes(char *text, uint8_t *bytes, size_t length)
{
    input in = lend_input(text);
    if (in.length != length)
        stop("a word with too few bytes, or too many");
    memcpy(bytes, in.lent, length);
    give_back_input(in);
}

/* A buffer with bytes in it that go on changing. */
static inline input lend_buffer(size_t length)
{
    input in = {lend(length), lend(length), length};
    for (size_t i = 0; i < length; i++)
        in.kept[i] = in.lent[i] = (uint8_t)(7 * i + i / 256 + 1);
    return in;
}

static inline void print_given(const uint8_t *bytes, size_t length)
{
    uint8_t digest[DIGEST];
    if (length == 0) {
        printf("- ");
        return;
    }
    if (length > MOST_SHOWN) {
        if (fortuna_sha256(bytes, length, digest) != FORTUNA_DONE)
            stop("fortuna_sha256 was refused");
        printf("sha256:");
        bytes = digest;
        length = DIGEST;
    }
    print_bytes(bytes, length);
    putchar(' ');
}

/* ---- lists of quotas */

/* How many entries the list has. */
static inline size_t entries_in(const char *list)
{
    if (strcmp(list, "-") == 0)
        return 0;
    size_t count = 1;
    while ((list = strchr(list, ',')) != NULL) {
        list++;
        count++;
    }
    return count;
}

static inline quota_list lend_records(char *words)
{
    quota_list list = lend_quotas(entries_in(words));
    for (size_t i = 0; i < list.count; i++) {
        uint32_t source = part_number(&words, ":");
        uint32_t allowance = part_number(&words, ":");
        list.records[i] = (fortuna_quota){source, allowance, part_number(&words, ",")};
    }
    return list;
}

static inline void print_records(quota_list list)
{
    if (list.count == 0)
        putchar('-');
    for (size_t i = 0; i < list.count; i++)
        printf("%s%" PRIu32 ":%" PRIu32 ":%" PRIu32, i > 0 ? "," : "", list.records[i].source,
            list.records[i].allowance, list.records[i].spent);
}

/* The list in a new buffer, so that the one that was lent can be looked at. */
static inline quota_list passed_on(quota_list lent)
{
    quota_list list = lend_quotas(lent.count);
    memcpy(list.records, lent.records, lent.count * sizeof *lent.records);
    give_back_quotas(lent);
    return list;
}

#endif
