/* Processes: each has its own memory, and its parent hears how it ended. */
#include <errno.h>
#include <stdio.h>
#include <stdlib.h>
#include <string.h>
#include <sys/wait.h>
#include <unistd.h>

static int value = 1;
static volatile int *volatile nowhere = (int *)8;

static int end_of(pid_t child)
{
    int status = -1;
    pid_t ended = waitpid(child, &status, 0);
    return ended == child && WIFEXITED(status) ? WEXITSTATUS(status) : -1;
}

int main(void)
{
    pid_t first = fork();
    if (first == 0) {
        value = 2;
        exit(value + 40);
    }
    pid_t second = fork();
    if (second == 0)
        _exit(7);
    pid_t third = fork();
    if (third == 0)
        abort();
    pid_t fourth = fork();
    if (fourth == 0)
        *nowhere = 1;

    /* The other children's ends are kept. */
    printf("%d\n", end_of(fourth));
    printf("%d %d %d, value %d\n", end_of(third), end_of(second), end_of(first), value);
    printf("%d %s\n", wait(NULL), strerror(errno));
    printf("%d %s\n", waitpid(-1, NULL, WNOHANG), strerror(errno));
    return 0;
}
