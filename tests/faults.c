/* Reads of standard input and writes to standard output that fall short or fail, to be loaded before the C library
 * (LD_PRELOAD). By the environment:
 *   READ_STEP, WRITE_STEP     the most bytes that one call moves
 *   READ_FAILS, WRITE_FAILS   how many bytes are moved before a call fails
 *
 *   cc -shared -fPIC tests/faults.c -o faults.so
 */
#define _GNU_SOURCE
#include <errno.h>
#include <stdint.h>
#include <stdlib.h>
#include <sys/syscall.h>
#include <unistd.h>

static size_t number(const char *name, size_t otherwise)
{
    const char *text = getenv(name);
    return text != NULL ? (size_t)strtoul(text, NULL, 10) : otherwise;
}

/* How many of n bytes a call may move after done bytes, or -1 if it must fail. */
static ssize_t allowed(size_t n, size_t done, size_t step, size_t fails)
{
    if (done >= fails)
        return -1;
    n = n < step ? n : step;
    return (ssize_t)(n < fails - done ? n : fails - done);
}

ssize_t read(int fd, void *buffer, size_t n)
{
    static size_t done;
    ssize_t moved = (ssize_t)n;
    if (fd == STDIN_FILENO && (moved = allowed(n, done, number("READ_STEP", n), number("READ_FAILS", SIZE_MAX))) < 0) {
        errno = EIO;
        return -1;
    }
    moved = syscall(SYS_read, fd, buffer, (size_t)moved);
    if (fd == STDIN_FILENO && moved > 0)
        done += (size_t)moved;
    return moved;
}

ssize_t write(int fd, const void *buffer, size_t n)
{
    static size_t done;
    ssize_t moved = (ssize_t)n;
    if (fd == STDOUT_FILENO && (moved = allowed(n, done, number("WRITE_STEP", n), number("WRITE_FAILS", SIZE_MAX))) < 0) {
        errno = EIO;
        return -1;
    }
    moved = syscall(SYS_write, fd, buffer, (size_t)moved);
    if (fd == STDOUT_FILENO && moved > 0)
        done += (size_t)moved;
    return moved;
}
