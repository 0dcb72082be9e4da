// A server that accepts, starts a program, waits, and does nothing else. It shows what the system itself takes for a connection.
//
// limit ADDRESS PORT PROGRAM [WORD ..]: four processes, each with at most 40 programs at once; a queue of 4096.
#define _GNU_SOURCE
#include <arpa/inet.h>
#include <signal.h>
#include <stdlib.h>
#include <sys/prctl.h>
#include <sys/socket.h>
#include <sys/wait.h>
#include <unistd.h>

int main(int argc, char **argv) {
    if (argc < 4) return 100;
    struct sockaddr_in end = {.sin_family = AF_INET, .sin_port = htons(atoi(argv[2])), .sin_addr.s_addr = inet_addr(argv[1])};
    static int running;
    int door = socket(AF_INET, SOCK_STREAM | SOCK_CLOEXEC, 0), yes = 1;
    setsockopt(door, SOL_SOCKET, SO_REUSEADDR, &yes, sizeof yes);
    if (bind(door, (struct sockaddr *)&end, sizeof end) || listen(door, 4096)) return 111;
    for (int others = 3; others > 0; others--)
        if (fork() == 0) {
            prctl(PR_SET_PDEATHSIG, SIGKILL);
            break;
        }
    for (;;) {
        int client = accept4(door, 0, 0, SOCK_CLOEXEC);
        if (client < 0) continue;
        pid_t child = vfork();
        if (child == 0) {
            dup2(client, 0);
            dup2(client, 1);
            execv(argv[3], argv + 3);
            _exit(111);
        }
        close(client);
        running += child > 0;
        while (running && waitpid(-1, 0, running < 40 ? WNOHANG : 0) > 0) running--;
    }
}
