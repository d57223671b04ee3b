/* Preloaded into the command by stopped.rs: ends it, as a power cut would, at one of the
 * calls by which it changes files, and writes these calls down.
 *
 * STOP_AT is the number of the call, from 1. It is not done; of a write the first half
 * is. CALLS is a file to which each call is added, as a line. */

#define _GNU_SOURCE
#include <dlfcn.h>
#include <fcntl.h>
#include <signal.h>
#include <stdarg.h>
#include <stdio.h>
#include <stdlib.h>
#include <sys/stat.h>
#include <sys/syscall.h>
#include <unistd.h>

/* Past these functions. */
static void note(const char *call, const char *path)
{
    const char *calls = getenv("CALLS");
    char line[600];
    int length = snprintf(line, sizeof line, "%s %s\n", call, path);

    if (calls != NULL) {
        long to = syscall(SYS_openat, AT_FDCWD, calls, O_WRONLY | O_CREAT | O_APPEND, 0600);
        syscall(SYS_write, to, line, length);
        syscall(SYS_close, to);
    }
}

/* Whether the command ends here. */
static int here(const char *call, const char *path)
{
    static int count = 0;
    const char *stop = getenv("STOP_AT");

    note(call, path);
    count++;
    return stop != NULL && atoi(stop) == count;
}

static void stop(void)
{
    kill(getpid(), SIGKILL);
}

/* The name of an open file. */
static const char *name(int file)
{
    static char path[500];
    char link[40];
    ssize_t length;

    snprintf(link, sizeof link, "/proc/self/fd/%d", file);
    length = readlink(link, path, sizeof path - 1);
    path[length < 0 ? 0 : length] = 0;
    return path;
}

int open64(const char *path, int flags, ...)
{
    int (*next)(const char *, int, ...) = (int (*)(const char *, int, ...))dlsym(RTLD_NEXT, "open64");
    va_list more;
    int mode;

    va_start(more, flags);
    mode = va_arg(more, int);
    va_end(more);
    if ((flags & (O_CREAT | O_TRUNC)) != 0 && here("create", path))
        stop();
    return next(path, flags, mode);
}

ssize_t write(int file, const void *bytes, size_t length)
{
    ssize_t (*next)(int, const void *, size_t) =
        (ssize_t(*)(int, const void *, size_t))dlsym(RTLD_NEXT, "write");

    if (here("write", name(file))) {
        next(file, bytes, length / 2);
        stop();
    }
    return next(file, bytes, length);
}

int fchown(int file, uid_t owner, gid_t group)
{
    int (*next)(int, uid_t, gid_t) = (int (*)(int, uid_t, gid_t))dlsym(RTLD_NEXT, "fchown");

    if (here("fchown", name(file)))
        stop();
    return next(file, owner, group);
}

int fchmod(int file, mode_t mode)
{
    int (*next)(int, mode_t) = (int (*)(int, mode_t))dlsym(RTLD_NEXT, "fchmod");

    if (here("fchmod", name(file)))
        stop();
    return next(file, mode);
}

int fsync(int file)
{
    int (*next)(int) = (int (*)(int))dlsym(RTLD_NEXT, "fsync");

    if (here("fsync", name(file)))
        stop();
    return next(file);
}

int rename(const char *from, const char *to)
{
    int (*next)(const char *, const char *) =
        (int (*)(const char *, const char *))dlsym(RTLD_NEXT, "rename");

    if (here("rename", to))
        stop();
    return next(from, to);
}
