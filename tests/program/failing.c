/*
 * Loaded before the C library: standard input and output pass at most SHORT bytes at a time, and some calls fail: from the call READ_AT
 * or WRITE_AT on, which count from 0, as many as READ_COUNT or WRITE_COUNT say, with the error READ_ERROR or WRITE_ERROR.
 */
#define _GNU_SOURCE
#include <errno.h>
#include <stdlib.h>
#include <sys/syscall.h>
#include <unistd.h>

/* A number of the environment; or, where it has none, the other one. */
static long number(const char *name, long other)
{
    const char *text = getenv(name);
    return text == NULL ? other : atol(text);
}

/* Whether the call fails, of which so many were made before; then errno is set. */
static int fails(long before, const char *at, const char *count, const char *error)
{
    if (before < number(at, 0) || before >= number(at, 0) + number(count, 0))
        return 0;
    errno = (int)number(error, EIO);
    return 1;
}

static size_t part(size_t length)
{
    size_t most = (size_t)number("SHORT", 1 << 30);
    return length < most ? length : most;
}

ssize_t read(int file, void *buffer, size_t length)
{
    static long before;
    if (file != 0)
        return syscall(SYS_read, file, buffer, length);
    if (fails(before++, "READ_AT", "READ_COUNT", "READ_ERROR"))
        return -1;
    return syscall(SYS_read, file, buffer, part(length));
}

ssize_t write(int file, const void *buffer, size_t length)
{
    static long before;
    if (file != 1)
        return syscall(SYS_write, file, buffer, length);
    if (fails(before++, "WRITE_AT", "WRITE_COUNT", "WRITE_ERROR"))
        return -1;
    return syscall(SYS_write, file, buffer, part(length));
}
