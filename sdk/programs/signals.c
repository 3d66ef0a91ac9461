/* Signals: handlers, what `raise` and `kill` do, what is refused, and the end of a child that nothing handles. */
#include <errno.h>
#include <signal.h>
#include <stdio.h>
#include <string.h>
#include <sys/wait.h>
#include <unistd.h>

int sched_yield(void);

static volatile int last, count;

static void handle(int number)
{
    last = number;
    count++;
}

static void refuse(const char *name, int answer)
{
    printf("%s %d %s\n", name, answer, strerror(errno));
    errno = 0;
}

/* A read of the empty console ends where a signal comes. The child sends it until it is ended, so that one comes in the read. */
static void wait_for_signal(void)
{
    char byte;
    pid_t reader = getpid(), child = fork();
    while (child == 0) {
        kill(reader, SIGUSR1);
        sched_yield();
    }
    refuse("read", (int)read(0, &byte, 1));
    kill(child, SIGTERM);
    wait(NULL);
    printf("last %d\n", last == SIGUSR1);
}

int main(void)
{
    struct sigaction action = {.sa_handler = SIG_IGN}, before;
    int status;
    printf("signal %d\n", signal(SIGINT, handle) == SIG_DFL);
    printf("raise %d", raise(SIGINT));
    printf(" last %d count %d\n", last == SIGINT, count);
    printf("sigaction %d", sigaction(SIGINT, &action, &before));
    printf(" before %d", before.sa_handler == handle);
    printf(" raise %d count %d\n", raise(SIGINT), count);
    refuse("kill 99", kill(99, SIGTERM));
    refuse("signal 9", signal(SIGKILL, handle) == SIG_ERR);
    fflush(stdout);
    pid_t child = fork();
    if (child == 0)
        for (;;)
            ;
    printf("kill %d", kill(child, SIGTERM));
    printf(" wait %d", wait(&status) == child);
    printf(" status %d\n", WEXITSTATUS(status) - 128 == SIGTERM);
    signal(SIGUSR1, handle);
    fflush(stdout);
    wait_for_signal();
    return 0;
}
