/* A library to load before the C library: it counts the requests for memory (malloc and realloc, the only ones that the programs make), over all
   threads, and refuses the one of the number REFUSED_REQUEST; then it makes the file REFUSAL_MARK. */
#define _GNU_SOURCE
#include <dlfcn.h>
#include <errno.h>
#include <fcntl.h>
#include <stdlib.h>
#include <unistd.h>

static unsigned long requests, refused;
static int ready;

static int refuses(void)
{
    if (!ready) {
        const char *number = getenv("REFUSED_REQUEST");
        refused = number ? strtoul(number, NULL, 10) : 0;
        ready = 1;
    }
    if (__sync_add_and_fetch(&requests, 1) != refused)
        return 0;
    int mark = open(getenv("REFUSAL_MARK"), O_WRONLY | O_CREAT, 0600);
    if (mark >= 0)
        close(mark);
    errno = ENOMEM;
    return 1;
}

/* a program that is started meets no refusals */
__attribute__((constructor)) static void hide(void)
{
    unsetenv("LD_PRELOAD");
}

void *malloc(size_t size)
{
    static void *(*next)(size_t);
    if (!next)
        next = (void *(*)(size_t))dlsym(RTLD_NEXT, "malloc");
    return refuses() ? NULL : next(size);
}

void *realloc(void *block, size_t size)
{
    static void *(*next)(void *, size_t);
    if (!next)
        next = (void *(*)(void *, size_t))dlsym(RTLD_NEXT, "realloc");
    return refuses() ? NULL : next(block, size);
}
