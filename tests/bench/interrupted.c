/* A read and a write for a program to run with (LD_PRELOAD). Of three calls one fails with EINTR, one with EAGAIN, and
   one moves at most 11 bytes. */
#include <errno.h>
#include <stddef.h>
#include <sys/types.h>
#include <sys/syscall.h>
#include <unistd.h>

static long call(long number, int fd, const void *buffer, size_t length)
{
    static unsigned calls;
    switch (calls++ % 3) {
    case 0:
        errno = EINTR;
        return -1;
    case 1:
        errno = EAGAIN;
        return -1;
    default:
        return syscall(number, fd, buffer, length < 11 ? length : 11);
    }
}

ssize_t read(int fd, void *buffer, size_t length)
{
    return call(SYS_read, fd, buffer, length);
}

ssize_t write(int fd, const void *buffer, size_t length)
{
    return call(SYS_write, fd, buffer, length);
}
