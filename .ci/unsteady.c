// Loaded before the C library (LD_PRELOAD), it makes a program's reads and writes as awkward as POSIX allows: a read brings one byte, a
// write takes one to seven, some calls of both are interrupted before they move any, and errno behind a call that moved some tells nothing.
#define _GNU_SOURCE
#include <errno.h>
#include <sys/syscall.h>
#include <sys/types.h>
#include <unistd.h>

static unsigned reads, writes;

static ssize_t interrupted(void) {
    errno = EINTR;
    return -1;
}

// errno of a call that failed is its own; of one that did not it is another's
static ssize_t answer(ssize_t moved) {
    if (moved >= 0) errno = EIO;
    return moved;
}

ssize_t read(int fd, void *bytes, size_t count) {
    if (++reads % 5 == 0) return interrupted();
    return answer(syscall(SYS_read, fd, bytes, count < 1 ? count : 1));
}

ssize_t write(int fd, const void *bytes, size_t count) {
    size_t most = 1 + ++writes % 7;
    if (writes % 3 == 0) return interrupted();
    return answer(syscall(SYS_write, fd, bytes, count < most ? count : most));
}
