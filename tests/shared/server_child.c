/* A program for a server to start: it counts those that run at once, in a table that all of them share.

   server_child TABLE MILLISECONDS: adds itself to the table, prints `hi`, waits so long (0: until its input ends), takes itself off, and exits 0.
   The table is 131,076 numbers of 32 bits: those that run, the most that ever ran at once, the most from one address, how many there were, and
   then, for each of the last two numbers of an address, those that run and one that is not used. */
#include <fcntl.h>
#include <stdint.h>
#include <stdio.h>
#include <stdlib.h>
#include <sys/mman.h>
#include <time.h>
#include <unistd.h>

enum { RUNNING, MOST, MOST_OF_ONE, ALL, FIRST };

static void raise_to(volatile uint32_t *most, uint32_t number)
{
    uint32_t before = *most;
    while (before < number && !__sync_bool_compare_and_swap(most, before, number))
        before = *most;
}

static void wait_for(long milliseconds)
{
    char byte;
    if (milliseconds == 0) {
        while (read(0, &byte, 1) > 0)
            ;
    } else {
        struct timespec time = {milliseconds / 1000, milliseconds % 1000 * 1000000};
        nanosleep(&time, NULL);
    }
}

int main(int words, char **word)
{
    unsigned a, b, c, d;
    const char *address = getenv("TCPREMOTEIP");
    int file = words == 3 ? open(word[1], O_RDWR | O_CLOEXEC) : -1;
    if (file < 0 || !address || sscanf(address, "%u.%u.%u.%u", &a, &b, &c, &d) != 4)
        return 9;
    volatile uint32_t *table = mmap(NULL, 4 * (FIRST + 2 * 65536), PROT_READ | PROT_WRITE, MAP_SHARED, file, 0);
    if (table == MAP_FAILED)
        return 9;
    volatile uint32_t *mine = table + FIRST + 2 * ((c & 255) * 256 + (d & 255));
    raise_to(table + MOST, __sync_add_and_fetch(table + RUNNING, 1));
    raise_to(table + MOST_OF_ONE, __sync_add_and_fetch(mine, 1));
    __sync_add_and_fetch(table + ALL, 1);
    if (write(1, "hi\n", 3) != 3)
        return 8;
    wait_for(atol(word[2]));
    __sync_sub_and_fetch(mine, 1);
    __sync_sub_and_fetch(table + RUNNING, 1);
    return 0;
}
