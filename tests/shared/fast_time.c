/* A library to load before the C library: time passes FAST_TIMES times as fast for a program, on the clock that only goes forward, in its sleeps, and in
   its waits for descriptors. With SEND_BUFFER the system keeps about so many bytes for each client that is accepted, and not more and more of them.
   Programs that are started meet none of this. */
#define _GNU_SOURCE
#include <poll.h>
#include <stdlib.h>
#include <sys/socket.h>
#include <sys/syscall.h>
#include <time.h>
#include <unistd.h>

static const long long second = 1000000000;
static long long times = 1, began;
static int room;

static long long now(void)
{
    struct timespec time;
    syscall(SYS_clock_gettime, CLOCK_MONOTONIC, &time);
    return time.tv_sec * second + time.tv_nsec;
}

__attribute__((constructor)) static void begin(void)
{
    const char *value = getenv("FAST_TIMES");
    times = value ? atoll(value) : 1;
    began = now();
    value = getenv("SEND_BUFFER");
    room = value ? atoi(value) : 0;
    unsetenv("FAST_TIMES");
    unsetenv("SEND_BUFFER");
    unsetenv("LD_PRELOAD");
}

int clock_gettime(clockid_t clock, struct timespec *time)
{
    if (clock != CLOCK_MONOTONIC)
        return (int)syscall(SYS_clock_gettime, clock, time);
    long long passed = began + (now() - began) * times;
    time->tv_sec = passed / second;
    time->tv_nsec = passed % second;
    return 0;
}

int nanosleep(const struct timespec *time, struct timespec *left)
{
    long long all = (time->tv_sec * second + time->tv_nsec) / times;
    struct timespec shorter = {all / second, all % second};
    return (int)syscall(SYS_nanosleep, &shorter, left);
}

/* What is accepted has the buffers of what listens. */
int listen(int a, int waiting)
{
    if (room > 0 && syscall(SYS_setsockopt, a, SOL_SOCKET, SO_SNDBUF, &room, sizeof room) != 0)
        return -1;
    return (int)syscall(SYS_listen, a, waiting);
}

/* One that would wait waits for a millisecond at least. */
int poll(struct pollfd *watched, nfds_t number, int milliseconds)
{
    long long shorter = milliseconds > 0 ? (milliseconds + times - 1) / times : milliseconds;
    return (int)syscall(SYS_poll, watched, number, (int)shorter);
}
