/* Starts an agent on a terminal line, hands standard input to the line, and prints what comes back until nothing has
 * come for two seconds.
 *
 *   line AGENT */
#define _XOPEN_SOURCE 600
#include <fcntl.h>
#include <poll.h>
#include <signal.h>
#include <stdio.h>
#include <stdlib.h>
#include <sys/wait.h>
#include <time.h>
#include <unistd.h>

int main(int argc, char **argv)
{
    static unsigned char octets[4096];
    int line = posix_openpt(O_RDWR | O_NOCTTY);
    struct pollfd waits = {.fd = line, .events = POLLIN};
    ssize_t got;
    pid_t agent;

    if (argc != 2 || line < 0 || grantpt(line) != 0 || unlockpt(line) != 0) {
        perror("line");
        return 2;
    }
    agent = fork();
    if (agent == 0) {
        execlp(argv[1], argv[1], "--serial", ptsname(line), (char *)NULL);
        _exit(127);
    }
    nanosleep(&(struct timespec){.tv_sec = 1}, NULL); /* the agent has opened the line */
    got = read(STDIN_FILENO, octets, sizeof octets);
    if (got < 0 || write(line, octets, (size_t)got) != got) {
        perror("line");
    }
    while (poll(&waits, 1, 2000) > 0 && (got = read(line, octets, sizeof octets)) > 0) {
        fwrite(octets, 1, (size_t)got, stdout);
    }
    kill(agent, SIGTERM);
    waitpid(agent, NULL, 0);
    return 0;
}
