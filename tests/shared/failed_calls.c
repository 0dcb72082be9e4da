/* A library to load before the C library: it fails calls of a program, those of some names that have certain numbers.

   FAILED_CALLS has rules, each in a line: the name of a call below, or `memory`: malloc, calloc, realloc and posix_memalign together; the error, where 0
   has a read or a write take one byte; the first and the last number that fail, counted from 1 over all threads; how far they stand apart; a number of
   which no multiple fails, or 0; and the path of a file: with such a path each of these calls fails instead, as long as that file is there. Of two rules
   for one call the first decides. If a call fails, its number and its first descriptor (-1 if it has none) are added to the file FAILED_MARK. For each
   call whose name is a word of NOTED_CALLS the name is added to the file NOTED_MARK, whether it fails or not. Programs that are started meet none of
   this. */
#define _GNU_SOURCE
#include <dlfcn.h>
#include <errno.h>
#include <fcntl.h>
#include <poll.h>
#include <pthread.h>
#include <signal.h>
#include <spawn.h>
#include <stdarg.h>
#include <stdint.h>
#include <stdio.h>
#include <stdlib.h>
#include <string.h>
#include <sys/socket.h>
#include <sys/stat.h>
#include <sys/syscall.h>
#include <sys/wait.h>
#include <unistd.h>

enum { RULES = 8, NONE = -1 };

struct rule {
    char call[64], while_there[512];
    unsigned long first, last, step, spared, calls;
    int error;
};

static struct rule rules[RULES];
static char mark[512], noted[256], noted_mark[512];
static int count, ready;
static __thread int inside;

static void take(const char *name, char *text, size_t size)
{
    const char *value = getenv(name);
    if (value && strlen(value) < size)
        strcpy(text, value);
    unsetenv(name);
}

__attribute__((constructor)) static void begin(void)
{
    static char text[RULES * sizeof(struct rule)];
    char *rest = text, *line;
    take("FAILED_CALLS", text, sizeof text);
    take("FAILED_MARK", mark, sizeof mark);
    take("NOTED_CALLS", noted, sizeof noted);
    take("NOTED_MARK", noted_mark, sizeof noted_mark);
    while (count < RULES && (line = strsep(&rest, "\n"))) {
        struct rule *rule = &rules[count];
        count += sscanf(line, "%63s %d %lu %lu %lu %lu %511[^\n]", rule->call, &rule->error, &rule->first, &rule->last, &rule->step, &rule->spared,
            rule->while_there) >= 6;
    }
    unsetenv("LD_PRELOAD");
    ready = 1;
}

/* by the system alone, so that nothing here is counted */
static void add_line(const char *path, const char *line)
{
    int file = (int)syscall(SYS_openat, AT_FDCWD, path, O_WRONLY | O_CREAT | O_APPEND | O_CLOEXEC, 0600);
    if (file >= 0) {
        syscall(SYS_write, file, line, strlen(line));
        syscall(SYS_close, file);
    }
}

static int is_chosen(const struct rule *rule, unsigned long number)
{
    if (rule->while_there[0])
        return syscall(SYS_faccessat, AT_FDCWD, rule->while_there, F_OK) == 0;
    return number >= rule->first && number <= rule->last && (rule->step < 2 || (number - rule->first) % rule->step == 0) &&
        (rule->spared == 0 || number % rule->spared != 0);
}

static void note(const char *name)
{
    char line[128], words[sizeof noted + 2];
    snprintf(words, sizeof words, " %s ", noted);
    snprintf(line, sizeof line, " %s ", name);
    if (!strstr(words, line))
        return;
    snprintf(line, sizeof line, "%s\n", name);
    add_line(noted_mark, line);
}

/* the error of a call that fails, 0 for one byte, and otherwise NONE */
static int failure(const char *name, int descriptor)
{
    int found = NONE;
    if (!ready || inside)
        return NONE;
    inside = 1;
    if (noted[0])
        note(name);
    for (struct rule *rule = rules; rule < rules + count; rule++) {
        if (strcmp(name, rule->call) != 0)
            continue;
        unsigned long number = __sync_add_and_fetch(&rule->calls, 1);
        if (found != NONE || !is_chosen(rule, number))
            continue;
        char line[64];
        snprintf(line, sizeof line, "%lu %d\n", number, descriptor);
        add_line(mark, line);
        found = rule->error;
    }
    inside = 0;
    if (found > 0)
        errno = found;
    return found;
}

static int fails(const char *name, int descriptor)
{
    return failure(name, descriptor) != NONE;
}

#define NEXT(name) \
    static __typeof__(name) *next; \
    if (!next) \
        next = (__typeof__(name) *)dlsym(RTLD_NEXT, #name)

#define CALL(type, name, words, given, descriptor) \
    type name words \
    { \
        NEXT(name); \
        if (fails(#name, descriptor)) \
            return -1; \
        return next given; \
    }

/* one that takes bytes: without an error it takes one of them */
#define PART(name, words, given, descriptor, size) \
    ssize_t name words \
    { \
        NEXT(name); \
        int found = failure(#name, descriptor); \
        if (found > 0) \
            return -1; \
        if (found == 0) \
            size = size < 1 ? size : 1; \
        return next given; \
    }

CALL(int, socket, (int a, int b, int c), (a, b, c), -1)
CALL(int, setsockopt, (int a, int b, int c, const void *d, socklen_t e), (a, b, c, d, e), a)
CALL(int, bind, (int a, const struct sockaddr *b, socklen_t c), (a, b, c), a)
CALL(int, listen, (int a, int b), (a, b), a)
CALL(int, getsockname, (int a, struct sockaddr *b, socklen_t *c), (a, b, c), a)
CALL(int, accept4, (int a, struct sockaddr *b, socklen_t *c, int d), (a, b, c, d), a)
CALL(int, shutdown, (int a, int b), (a, b), a)
CALL(int, poll, (struct pollfd *a, nfds_t b, int c), (a, b, c), -1)
CALL(int, pipe2, (int a[2], int b), (a, b), -1)
CALL(pid_t, waitpid, (pid_t a, int *b, int c), (a, b, c), -1)
CALL(int, waitid, (idtype_t a, id_t b, siginfo_t *c, int d), (a, b, c, d), -1)
CALL(int, kill, (pid_t a, int b), (a, b), -1)
CALL(int, fstat, (int a, struct stat *b), (a, b), a)
CALL(int, stat, (const char *a, struct stat *b), (a, b), -1)
CALL(int, lstat, (const char *a, struct stat *b), (a, b), -1)
CALL(int, fstatat, (int a, const char *b, struct stat *c, int d), (a, b, c, d), a)
CALL(int, statx, (int a, const char *b, int c, unsigned d, struct statx *e), (a, b, c, d, e), a)
CALL(off_t, lseek, (int a, off_t b, int c), (a, b, c), a)
CALL(int, unlink, (const char *a), (a), -1)
CALL(int, unlinkat, (int a, const char *b, int c), (a, b, c), a)
CALL(int, rename, (const char *a, const char *b), (a, b), -1)
CALL(int, renameat, (int a, const char *b, int c, const char *d), (a, b, c, d), a)
CALL(int, fchmod, (int a, mode_t b), (a, b), a)
CALL(int, fsync, (int a), (a), a)
CALL(int, flock, (int a, int b), (a, b), a)
PART(read, (int a, void *b, size_t c), (a, b, c), a, c)
PART(write, (int a, const void *b, size_t c), (a, b, c), a, c)
PART(recv, (int a, void *b, size_t c, int d), (a, b, c, d), a, c)
PART(send, (int a, const void *b, size_t c, int d), (a, b, c, d), a, c)
PART(pread, (int a, void *b, size_t c, off_t d), (a, b, c, d), a, c)
PART(pread64, (int a, void *b, size_t c, off_t d), (a, b, c, d), a, c)
PART(pwrite, (int a, const void *b, size_t c, off_t d), (a, b, c, d), a, c)

/* the descriptor is closed all the same, as the system does */
int close(int a)
{
    NEXT(close);
    int found = failure("close", a);
    int ended = next(a);
    if (found == NONE)
        return ended;
    errno = found;
    return -1;
}

#define OPEN(name, words, given, descriptor, of) \
    int name words \
    { \
        NEXT(name); \
        va_list rest; \
        va_start(rest, of); \
        int mode = va_arg(rest, int); \
        va_end(rest); \
        if (fails("open", descriptor)) \
            return -1; \
        return next given; \
    }

OPEN(open, (const char *a, int b, ...), (a, b, mode), -1, b)
OPEN(open64, (const char *a, int b, ...), (a, b, mode), -1, b)
OPEN(openat, (int d, const char *a, int b, ...), (d, a, b, mode), d, b)

int fcntl(int a, int b, ...)
{
    NEXT(fcntl);
    va_list rest;
    va_start(rest, b);
    void *c = va_arg(rest, void *);
    va_end(rest);
    return fails("fcntl", a) ? -1 : next(a, b, c);
}

int posix_spawn(pid_t *a, const char *b, const posix_spawn_file_actions_t *c, const posix_spawnattr_t *d, char *const e[], char *const f[])
{
    NEXT(posix_spawn);
    int found = failure("posix_spawn", -1);
    return found == NONE ? next(a, b, c, d, e, f) : found;
}

int pthread_create(pthread_t *a, const pthread_attr_t *b, void *(*c)(void *), void *d)
{
    NEXT(pthread_create);
    int found = failure("pthread_create", -1);
    return found == NONE ? next(a, b, c, d) : found;
}

static void *refused(void)
{
    errno = ENOMEM;
    return NULL;
}

void *malloc(size_t a)
{
    NEXT(malloc);
    return fails("memory", -1) ? refused() : next(a);
}

void *realloc(void *a, size_t b)
{
    NEXT(realloc);
    return fails("memory", -1) ? refused() : next(a, b);
}

int posix_memalign(void **a, size_t b, size_t c)
{
    NEXT(posix_memalign);
    return fails("memory", -1) ? ENOMEM : next(a, b, c);
}

void *calloc(size_t a, size_t b)
{
    /* `dlsym` may ask for memory while the next one is looked for */
    static char early[4096];
    static size_t taken;
    static int looking;
    static void *(*next)(size_t, size_t);
    if (!next && looking) {
        size_t place = taken;
        taken += (a * b + 15) & ~(size_t)15;
        return taken <= sizeof early ? early + place : NULL;
    }
    looking = 1;
    if (!next)
        next = (void *(*)(size_t, size_t))dlsym(RTLD_NEXT, "calloc");
    return fails("memory", -1) ? refused() : next(a, b);
}
