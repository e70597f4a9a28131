/* Preloaded into the listing program: its read of standard input and its write to standard output move few bytes at a time, or fail after some.
 *   MOST=K              at most K bytes a call
 *   READ_FAILS_AFTER=K  reads fail with EIO once K bytes have come; WRITE_FAILS_AFTER=K: writes with ENOSPC once K bytes have gone
 * Other programs, which inherit the environment, are left alone. */
#define _GNU_SOURCE
#include <errno.h>
#include <stdint.h>
#include <stdlib.h>
#include <string.h>
#include <sys/syscall.h>
#include <unistd.h>

/* a number of the environment, or a very large one where it is not set */
static size_t setting(const char *name)
{
    const char *text = getenv(name);
    return text ? strtoul(text, NULL, 10) : (size_t)1 << 40;
}

/* how many of `count` bytes may move after `moved` have, by the limit of a call and that of all calls */
static size_t allowed(size_t count, size_t moved, const char *limit)
{
    size_t most = setting("MOST"), left = setting(limit);
    left = moved < left ? left - moved : 0;
    if (most < count)
        count = most;
    return left < count ? left : count;
}

static int watched(int fd, int which)
{
    return fd == which && strcmp(program_invocation_short_name, "listing") == 0;
}

/* Moves as many bytes as the limits allow, or fails with `error` where they allow none. */
static ssize_t move(long call, int fd, uintptr_t bytes, size_t count, const char *limit, int error)
{
    static size_t moved[2]; /* by the descriptor: 0 read, 1 written */
    size_t some = allowed(count, moved[fd], limit);
    if (some == 0 && count) {
        errno = error;
        return -1;
    }
    ssize_t done = syscall(call, fd, bytes, some);
    if (0 < done)
        moved[fd] += (size_t)done;
    return done;
}

ssize_t read(int fd, void *bytes, size_t count)
{
    return watched(fd, STDIN_FILENO) ? move(SYS_read, fd, (uintptr_t)bytes, count, "READ_FAILS_AFTER", EIO) : syscall(SYS_read, fd, bytes, count);
}

ssize_t write(int fd, const void *bytes, size_t count)
{
    return watched(fd, STDOUT_FILENO) ? move(SYS_write, fd, (uintptr_t)bytes, count, "WRITE_FAILS_AFTER", ENOSPC) : syscall(SYS_write, fd, bytes, count);
}
