/* A library to load before the C library: it holds the opens of one file up, or has something else stand there when they come.

   HELD_PATH is the path of the file. With HELD_UNTIL each open of it waits until so many are under way at once (HELD_MARK is a file that counts them), or
   a quarter of an hour. With HELD_PIPE the first open of it finds that named pipe, which is moved into its place. Programs that are started meet
   none of this. */
#define _GNU_SOURCE
#include <dlfcn.h>
#include <fcntl.h>
#include <stdarg.h>
#include <stdio.h>
#include <stdlib.h>
#include <string.h>
#include <sys/stat.h>
#include <sys/syscall.h>
#include <time.h>
#include <unistd.h>

static char path[512], pipe_path[512], mark[512];
static long until;

static void take(const char *name, char *text, size_t size)
{
    const char *value = getenv(name);
    if (value && strlen(value) < size)
        strcpy(text, value);
    unsetenv(name);
}

__attribute__((constructor)) static void begin(void)
{
    char text[32] = "0";
    take("HELD_PATH", path, sizeof path);
    take("HELD_PIPE", pipe_path, sizeof pipe_path);
    take("HELD_MARK", mark, sizeof mark);
    take("HELD_UNTIL", text, sizeof text);
    until = strtol(text, NULL, 10);
    unsetenv("LD_PRELOAD");
}

static void wait_for_others(void)
{
    struct stat found;
    struct timespec pause = {0, 5000000};
    int file = (int)syscall(SYS_openat, AT_FDCWD, mark, O_WRONLY | O_CREAT | O_APPEND | O_CLOEXEC, 0600);
    if (file < 0)
        return;
    syscall(SYS_write, file, "x", 1);
    for (int turn = 0; turn < 180000 && fstat(file, &found) == 0 && found.st_size < until; turn++)
        nanosleep(&pause, NULL);
    syscall(SYS_close, file);
}

static void hold(const char *opened)
{
    static int moved;
    if (!path[0] || strcmp(opened, path) != 0)
        return;
    if (until)
        wait_for_others();
    if (pipe_path[0] && __sync_bool_compare_and_swap(&moved, 0, 1))
        rename(pipe_path, path);
}

static int mode_of(int flags, va_list rest)
{
    return flags & (O_CREAT | O_TMPFILE) ? va_arg(rest, int) : 0;
}

/* a call of the C library's that opens a file, held up first */
#define HELD(name) \
    int name(const char *opened, int flags, ...) \
    { \
        static int (*next)(const char *, int, ...); \
        va_list rest; \
        va_start(rest, flags); \
        int mode = mode_of(flags, rest); \
        va_end(rest); \
        hold(opened); \
        if (!next) \
            next = (int (*)(const char *, int, ...))dlsym(RTLD_NEXT, #name); \
        return next(opened, flags, mode); \
    }

HELD(open)
HELD(open64)
