/* Standard input and output for the programs beside this: a read or a write that was interrupted is tried again, one on
   a stream that does not wait is waited for, and one that failed ends the program with status 2. A terminal is told how
   far a long work is. */
#ifndef STREAMS_H
#define STREAMS_H

#include <errno.h>
#include <inttypes.h>
#include <poll.h>
#include <stdbool.h>
#include <stdint.h>
#include <stdio.h>
#include <stdlib.h>
#include <string.h>
#include <time.h>
#include <unistd.h>

enum { QUIET = 5, EVERY = 10 }; /* seconds before a terminal is told how far the work is, and from then on */

static const char *speaker; /* the program's name, which stands before whatever it says */

static inline _Noreturn void failed(const char *what)
{
    fprintf(stderr, "%s: %s: %s\n", speaker, what, strerror(errno));
    exit(2);
}

/* Whether a read or a write that failed is to be tried again: it was interrupted, or its stream does not wait, and is
   waited for here. */
static inline bool again(int stream, short until)
{
    if (errno == EINTR)
        return true;
    if (errno != EAGAIN && errno != EWOULDBLOCK)
        return false;
    struct pollfd waited = {.fd = stream, .events = until};
    return poll(&waited, 1, -1) >= 0 || errno == EINTR;
}

/* How many bytes came, up to so many; 0 at the end. */
static inline size_t read_some(uint8_t *bytes, size_t most)
{
    ssize_t count;
    while ((count = read(STDIN_FILENO, bytes, most)) < 0)
        if (!again(STDIN_FILENO, POLLIN))
            failed("standard input could not be read");
    return (size_t)count;
}

static inline void write_all(const uint8_t *bytes, size_t length)
{
    while (length > 0) {
        ssize_t count = write(STDOUT_FILENO, bytes, length);
        if (count < 0) {
            if (!again(STDOUT_FILENO, POLLOUT))
                failed("standard output could not be written");
            continue;
        }
        bytes += count;
        length -= (size_t)count;
    }
}

/* After the last write: some file systems tell only now that one has failed. */
static inline void end_output(void)
{
    if (close(STDOUT_FILENO) != 0)
        failed("standard output could not be written");
}

static inline double seconds(void)
{
    struct timespec now;
    clock_gettime(CLOCK_MONOTONIC, &now);
    return (double)now.tv_sec + (double)now.tv_nsec / 1e9;
}

/* Says how much is done to a terminal only, so that nothing is said where standard error is kept in a file. */
static inline void show_progress(uint64_t count, const char *what)
{
    static double start, next;
    double now = seconds();
    if (next == 0) {
        start = now;
        next = now + QUIET;
    }
    if (now < next || !isatty(STDERR_FILENO))
        return;
    next = now + EVERY;
    fprintf(stderr, "%s: %.0f s, %" PRIu64 " %s\n", speaker, now - start, count, what);
}

#endif
