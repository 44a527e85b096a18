/* Loaded before the C library (LD_PRELOAD), it counts the steps that change files or print: creating, changing a mode, writing,
 * syncing, renaming, removing. SHIM_LOG names a file that gets a line for each step. At step number SHIM_STEP, or at the first step of
 * the name SHIM_STEP, before it is taken, SHIM_DO says what happens: kill, stop (until the process is continued) or fail.
 * SHIM_SWAP is the name of a file that is moved, and a link to it put in its place, just before it is first opened.
 * SHIM_RANDOM names a file that stands for the system's source of randomness: its bytes in order, one a call, then a failure. */
#define _GNU_SOURCE
#include <dlfcn.h>
#include <errno.h>
#include <fcntl.h>
#include <signal.h>
#include <stdarg.h>
#include <stdio.h>
#include <stdlib.h>
#include <string.h>
#include <sys/random.h>
#include <sys/stat.h>
#include <sys/syscall.h>
#include <unistd.h>

static int steps = 0;
static int done = 0;

static const char *base(const char *path)
{
    const char *slash = strrchr(path, '/');
    return slash != NULL ? slash + 1 : path;
}

static void note(const char *line)
{
    const char *log = getenv("SHIM_LOG");
    if (log == NULL)
        return;
    int file = (int)syscall(SYS_openat, AT_FDCWD, log, O_WRONLY | O_CREAT | O_APPEND, 0600);
    syscall(SYS_write, file, line, strlen(line));
    syscall(SYS_close, file);
}

/* Whether the step is to fail. */
static int step(const char *what, const char *path)
{
    char line[512];
    const char *at = getenv("SHIM_STEP");
    const char *act = getenv("SHIM_DO");
    snprintf(line, sizeof line, "%s %s\n", what, base(path));
    note(line);
    steps++;
    if (done || at == NULL || act == NULL || (atoi(at) != steps && strncmp(at, line, strlen(at)) != 0))
        return 0;
    done = 1;
    if (strcmp(act, "kill") == 0)
        kill(getpid(), SIGKILL);
    if (strcmp(act, "stop") == 0)
        kill(getpid(), SIGSTOP);
    errno = ENOSPC;
    return strcmp(act, "fail") == 0;
}

static int step_on(const char *what, int file)
{
    char link[64], path[256];
    struct stat here, output;
    snprintf(link, sizeof link, "/proc/self/fd/%d", file);
    ssize_t length = readlink(link, path, sizeof path - 1);
    path[length > 0 ? length : 0] = 0;
    if (fstat(file, &here) == 0 && fstat(1, &output) == 0 && here.st_ino == output.st_ino && here.st_dev == output.st_dev)
        return step(what, "output");
    return step(what, path);
}

#define REAL(name) ((__typeof__(&name))dlsym(RTLD_NEXT, #name))

static void swap(const char *path)
{
    char moved[4096];
    const char *name = getenv("SHIM_SWAP");
    if (name == NULL || strcmp(name, base(path)) != 0)
        return;
    unsetenv("SHIM_SWAP");
    snprintf(moved, sizeof moved, "%s.moved", path);
    if (syscall(SYS_rename, path, moved) != 0 || symlink(moved, path) != 0)
        abort();
}

int open64(const char *path, int flags, ...)
{
    va_list rest;
    va_start(rest, flags);
    mode_t mode = (flags & O_CREAT) != 0 ? va_arg(rest, mode_t) : 0;
    va_end(rest);
    if ((flags & O_CREAT) != 0 && step("create", path))
        return -1;
    swap(path);
    return REAL(open64)(path, flags, mode);
}

int fchmod(int file, mode_t mode)
{
    return step_on("mode", file) ? -1 : REAL(fchmod)(file, mode);
}

ssize_t write(int file, const void *bytes, size_t count)
{
    return file != 2 && step_on("write", file) ? -1 : REAL(write)(file, bytes, count);
}

int fsync(int file)
{
    return step_on("sync", file) ? -1 : REAL(fsync)(file);
}

int rename(const char *from, const char *to)
{
    return step("rename", to) ? -1 : REAL(rename)(from, to);
}

int unlink(const char *path)
{
    return step("remove", path) ? -1 : REAL(unlink)(path);
}

ssize_t getrandom(void *buffer, size_t count, unsigned flags)
{
    static off_t drawn = 0;
    const char *source = getenv("SHIM_RANDOM");
    if (source == NULL)
        return REAL(getrandom)(buffer, count, flags);
    int file = (int)syscall(SYS_openat, AT_FDCWD, source, O_RDONLY);
    ssize_t got = count > 0 ? pread(file, buffer, 1, drawn) : 0;
    syscall(SYS_close, file);
    drawn += got;
    errno = EIO;
    return count > 0 && got != 1 ? -1 : got;
}
