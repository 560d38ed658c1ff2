/* Changes what a program writes to files, those on standard error aside: each write, each flush to
 * the disk and each new name is a step, counted from 1. The step whose number is in FAIL fails, and
 * the one in FULL fails as on a full disk; the write in NOTHING takes no byte; after the step in
 * KILL the program is killed. With SHORT set each write takes one byte. Loaded before the C
 * library: see writes.py. */
#define _GNU_SOURCE
#include <dlfcn.h>
#include <errno.h>
#include <signal.h>
#include <stdlib.h>
#include <unistd.h>

static long seen;

static int is_named_by(const char *name)
{
    const char *text = getenv(name);
    return text && atol(text) == seen;
}

/* Counts a step, and says whether it fails. */
static int fails(void)
{
    seen++;
    if (is_named_by("FAIL")) {
        errno = EIO;
        return 1;
    }
    if (is_named_by("FULL")) {
        errno = ENOSPC;
        return 1;
    }
    return 0;
}

/* Ends the program after a step, if that is asked for. */
static long ended(long result)
{
    if (is_named_by("KILL"))
        kill(getpid(), SIGKILL);
    return result;
}

ssize_t write(int file, const void *bytes, size_t count)
{
    static ssize_t (*real)(int, const void *, size_t);
    if (!real)
        real = dlsym(RTLD_NEXT, "write");
    if (file == STDERR_FILENO)
        return real(file, bytes, count);
    if (fails())
        return -1;
    if (is_named_by("NOTHING"))
        return 0;
    return ended(real(file, bytes, getenv("SHORT") && count > 1 ? 1 : count));
}

int fsync(int file)
{
    static int (*real)(int);
    if (!real)
        real = dlsym(RTLD_NEXT, "fsync");
    return fails() ? -1 : ended(real(file));
}

int rename(const char *from, const char *to)
{
    static int (*real)(const char *, const char *);
    if (!real)
        real = dlsym(RTLD_NEXT, "rename");
    return fails() ? -1 : ended(real(from, to));
}
