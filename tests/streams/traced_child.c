/* Tells its number, closes what it was given, and stops, traced by whoever started it. Only SIGKILL ends it, as its tracer does not let it go on. */
#include <signal.h>
#include <stdio.h>
#include <sys/ptrace.h>
#include <unistd.h>

int main(void)
{
    printf("%d\n", (int)getpid());
    fflush(stdout);
    close(0);
    close(1);
    if (ptrace(PTRACE_TRACEME, 0, 0, 0) < 0)
        return 9;
    raise(SIGSTOP);
    return 7;
}
