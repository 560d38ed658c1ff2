/* Refuses the request for memory whose number, from 1, is in REFUSE. With REFUSE_COUNT set, prints
 * the number of requests on standard error at the end. Requests of fewer bytes than REFUSE_LEAST
 * are neither counted nor refused. With REFUSE_AFTER set, the first request of at least that many
 * bytes is the last one that is not refused. Loaded before the C library. By `nm -D`, the programs
 * of the gate call no other function for memory than these two. */
#define _GNU_SOURCE
#include <dlfcn.h>
#include <errno.h>
#include <stdio.h>
#include <stdlib.h>

static long seen;

/* Returns the number that a variable of the environment has, 0 if there is none. */
static long number_in(const char *name)
{
    const char *text = getenv(name);
    return text ? atol(text) : 0;
}

static int is_refused(size_t size)
{
    static long number = -1, least, after;
    static int is_used_up;
    if (number < 0) {
        number = number_in("REFUSE");
        least = number_in("REFUSE_LEAST");
        after = number_in("REFUSE_AFTER");
    }
    if (size < (size_t)least)
        return 0;
    seen++;
    if (is_used_up || seen == number) {
        errno = ENOMEM;
        return 1;
    }
    is_used_up = after && size >= (size_t)after;
    return 0;
}

void *malloc(size_t size)
{
    static void *(*real)(size_t);
    if (!real)
        real = dlsym(RTLD_NEXT, "malloc");
    return is_refused(size) ? NULL : real(size);
}

void *realloc(void *old, size_t size)
{
    static void *(*real)(void *, size_t);
    if (!real)
        real = dlsym(RTLD_NEXT, "realloc");
    return is_refused(size) ? NULL : real(old, size);
}

__attribute__((destructor)) static void print_count(void)
{
    if (getenv("REFUSE_COUNT"))
        fprintf(stderr, "%ld\n", seen);
}
