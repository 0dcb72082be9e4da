/* A program for a server to start: it tells what it was given, or answers in two pieces.

   server_given: a line for each open descriptor, in order, then `.`; then it copies its input to its output until the end.
       N KIND DEVICE:INODE FLAGS [peer ADDRESS local ADDRESS OPTIONS]
   KIND is `socket`, `pipe`, `file` or `other`; FLAGS is `blocking` or `nonblocking`. What begins with `peer` stands for a socket alone: ADDRESS is
   IP:PORT, or the number of an error; OPTIONS are the socket's: nodelay, keepalive, linger, and the timeouts of receiving and sending in seconds.
   server_given pairs: for each byte of input one `a`, and two milliseconds later one `b`.
   server_given fill PATH [SIZE]: numbers of eight digits, until for a second no more is taken; then it writes to PATH how many bytes it wrote, and ends
   with what it wrote still on its way. With SIZE the pipe that it writes to holds so many bytes. */
#define _GNU_SOURCE
#include <arpa/inet.h>
#include <dirent.h>
#include <errno.h>
#include <fcntl.h>
#include <netinet/in.h>
#include <netinet/tcp.h>
#include <stdio.h>
#include <stdlib.h>
#include <string.h>
#include <sys/socket.h>
#include <sys/stat.h>
#include <sys/time.h>
#include <time.h>
#include <unistd.h>

static char text[65536];
static size_t length;

static void say(const char *what)
{
    length += (size_t)snprintf(text + length, sizeof text - length, "%s", what);
}

static void say_number(const char *name, long number)
{
    length += (size_t)snprintf(text + length, sizeof text - length, "%s%ld", name, number);
}

static void say_address(const char *name, int failed, const struct sockaddr_in *address)
{
    char ip[INET_ADDRSTRLEN];
    say(name);
    if (failed) {
        say_number("", errno);
        return;
    }
    say(inet_ntop(AF_INET, &address->sin_addr, ip, sizeof ip));
    say_number(":", ntohs(address->sin_port));
}

static int option(int socket, int level, int name)
{
    int value = -1;
    socklen_t size = sizeof value;
    return getsockopt(socket, level, name, &value, &size) ? -1 : value;
}

static void say_socket(int socket)
{
    struct sockaddr_in address = {0};
    socklen_t size = sizeof address;
    say_address(" peer ", getpeername(socket, (struct sockaddr *)&address, &size), &address);
    size = sizeof address;
    say_address(" local ", getsockname(socket, (struct sockaddr *)&address, &size), &address);
    say_number(" nodelay ", option(socket, IPPROTO_TCP, TCP_NODELAY));
    say_number(" keepalive ", option(socket, SOL_SOCKET, SO_KEEPALIVE));
    struct linger linger = {-1, -1};
    size = sizeof linger;
    getsockopt(socket, SOL_SOCKET, SO_LINGER, &linger, &size);
    say_number(" linger ", linger.l_onoff);
    for (int n = 0; n < 2; n++) {
        struct timeval time = {-1, 0};
        size = sizeof time;
        getsockopt(socket, SOL_SOCKET, n ? SO_SNDTIMEO : SO_RCVTIMEO, &time, &size);
        say_number(n ? " sending " : " receiving ", (long)time.tv_sec + (time.tv_usec != 0));
    }
}

static void say_descriptor(int descriptor)
{
    struct stat stat;
    if (fstat(descriptor, &stat))
        return;
    int flags = fcntl(descriptor, F_GETFL);
    say_number("", descriptor);
    say(S_ISSOCK(stat.st_mode) ? " socket" : S_ISFIFO(stat.st_mode) ? " pipe" : S_ISREG(stat.st_mode) ? " file" : " other");
    say_number(" ", (long)stat.st_dev);
    say_number(":", (long)stat.st_ino);
    say(flags & O_NONBLOCK ? " nonblocking" : " blocking");
    if (S_ISSOCK(stat.st_mode))
        say_socket(descriptor);
    say("\n");
}

static int by_number(const void *one, const void *other)
{
    return *(const int *)one - *(const int *)other;
}

static int say_all(void)
{
    int open[1024], number = 0;
    DIR *folder = opendir("/proc/self/fd");
    if (!folder)
        return 9;
    for (struct dirent *entry; (entry = readdir(folder)) && number < 1024;)
        if (entry->d_name[0] != '.' && atoi(entry->d_name) != dirfd(folder))
            open[number++] = atoi(entry->d_name);
    qsort(open, (size_t)number, sizeof open[0], by_number);
    for (int n = 0; n < number; n++)
        say_descriptor(open[n]);
    closedir(folder);
    say(".\n");
    return write(1, text, length) != (ssize_t)length;
}

static int copy(void)
{
    ssize_t size;
    while ((size = read(0, text, sizeof text)) > 0)
        for (ssize_t done = 0, part; done < size; done += part)
            if ((part = write(1, text + done, (size_t)(size - done))) < 0)
                return 8;
    return size < 0 ? 7 : 0;
}

static int pairs(void)
{
    struct timespec time = {0, 2000000};
    char byte;
    while (read(0, &byte, 1) == 1)
        if (write(1, "a", 1) != 1 || nanosleep(&time, NULL) || write(1, "b", 1) != 1)
            return 8;
    return 0;
}

static int fill(const char *path, int size)
{
    struct timespec time = {0, 50000000};
    long written = 0;
    if (size && fcntl(1, F_SETPIPE_SZ, size) < size)
        return 6;
    fcntl(1, F_SETFL, fcntl(1, F_GETFL) | O_NONBLOCK);
    for (int rounds = 0; rounds < 20; rounds++) {
        for (;;) {
            char number[9];
            snprintf(number, sizeof number, "%08ld", written / 8 % 100000000);
            ssize_t size = write(1, number + written % 8, (size_t)(8 - written % 8));
            if (size <= 0)
                break;
            written += size;
            rounds = 0;
        }
        nanosleep(&time, NULL);
    }
    FILE *file = fopen(path, "w");
    return !file || fprintf(file, "%ld\n", written) < 0 || fclose(file);
}

int main(int words, char **word)
{
    if (words > 2 && strcmp(word[1], "fill") == 0)
        return fill(word[2], words > 3 ? atoi(word[3]) : 0);
    if (words > 1 && strcmp(word[1], "pairs") == 0)
        return pairs();
    int code = say_all();
    return code ? code : copy();
}
