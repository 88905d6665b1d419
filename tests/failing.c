/* read and write as a system answers them on a bad day, for tests/failures:
 *   gcc -std=c99 -shared -fPIC tests/failing.c -o failing.so
 *   LD_PRELOAD=./failing.so READ_MOST=7 READ_EINTR=2 target/bin/drill
 * Every descriptor's reads go by the variables READ_.., and the writes to standard output by WRITE_..; what is
 * told on standard error is written as it is. A variable that is not set asks nothing.
 *   MOST=k         a call moves at most k bytes
 *   EINTR=k        every k-th call is interrupted: with 1, all of them
 *   EINTR_FIRST=k  the first k calls are interrupted
 *   EIO=k          after k bytes in all, each call fails
 *   NONE=1         a call moves no byte, and does not fail */
#define _GNU_SOURCE
#include <errno.h>
#include <stdio.h>
#include <stdlib.h>
#include <sys/syscall.h>
#include <unistd.h>

struct side {
    const char *name;
    long calls, moved;
};

static struct side reads = {"READ", 0, 0};
static struct side writes = {"WRITE", 0, 0};

/* The number that a variable asks, or -1. */
static long asked(const struct side *side, const char *what) {
    char name[32];
    const char *text;
    snprintf(name, sizeof name, "%s_%s", side->name, what);
    text = getenv(name);
    return text ? atol(text) : -1;
}

/* How many of `count` bytes this call may move, or -1 where it fails. */
static ssize_t room(struct side *side, size_t count) {
    long most = asked(side, "MOST"), every = asked(side, "EINTR"), eio = asked(side, "EIO");
    side->calls++;
    if ((every > 0 && side->calls % every == 0) || side->calls <= asked(side, "EINTR_FIRST")) {
        errno = EINTR;
        return -1;
    }
    if (asked(side, "NONE") == 1)
        return 0;
    if (eio >= 0 && side->moved >= eio) {
        errno = EIO;
        return -1;
    }
    if (eio >= 0 && count > (size_t)(eio - side->moved))
        count = (size_t)(eio - side->moved);
    if (most >= 0 && count > (size_t)most)
        count = (size_t)most;
    return (ssize_t)count;
}

static ssize_t answer(struct side *side, long call, int fd, const void *bytes, size_t count) {
    ssize_t n = room(side, count);
    if (n > 0)
        n = syscall(call, fd, bytes, (size_t)n);
    if (n > 0)
        side->moved += n;
    return n;
}

ssize_t read(int fd, void *bytes, size_t count) {
    return answer(&reads, SYS_read, fd, bytes, count);
}

ssize_t write(int fd, const void *bytes, size_t count) {
    if (fd != STDOUT_FILENO)
        return syscall(SYS_write, fd, bytes, count);
    return answer(&writes, SYS_write, fd, bytes, count);
}
