/* Stands before the system's malloc and realloc, and refuses one request: that whose number REFUSED_REQUEST tells, from 1 on.
   At the program's end the number of all requests goes into the file that REQUESTS_MADE names. */
#define _GNU_SOURCE
#include <dlfcn.h>
#include <errno.h>
#include <fcntl.h>
#include <stdatomic.h>
#include <stdio.h>
#include <stdlib.h>
#include <sys/syscall.h>
#include <unistd.h>

static atomic_long made;
static long refused;

/* What came before was asked for by the loader. */
__attribute__((constructor)) static void begin(void)
{
    const char *word = getenv("REFUSED_REQUEST");
    refused = word ? atol(word) : 0;
    atomic_store(&made, 0);
}

static int is_refused(void)
{
    if (atomic_fetch_add(&made, 1) + 1 != refused)
        return 0;
    errno = ENOMEM;
    return 1;
}

void *malloc(size_t size)
{
    static void *(*next)(size_t);
    if (!next)
        next = dlsym(RTLD_NEXT, "malloc");
    return is_refused() ? NULL : next(size);
}

void *realloc(void *old, size_t size)
{
    static void *(*next)(void *, size_t);
    if (!next)
        next = dlsym(RTLD_NEXT, "realloc");
    return is_refused() ? NULL : next(old, size);
}

static void tell(void)
{
    const char *path = getenv("REQUESTS_MADE");
    int file = path ? creat(path, 0600) : -1;
    if (file < 0)
        return;
    dprintf(file, "%ld", atomic_load(&made));
    close(file);
}

/* The program ends by this call, behind which nothing runs. */
__attribute__((noreturn)) void _exit(int status)
{
    tell();
    syscall(SYS_exit_group, status);
    __builtin_unreachable();
}

__attribute__((destructor)) static void end(void)
{
    tell();
}
