/* An assertion that doesn't hold ends the process, with a message and the status of an abort. */
#include <assert.h>
#include <stdio.h>
#include <sys/wait.h>
#include <unistd.h>

int main(void)
{
    if (fork() == 0)
        assert(1 + 1 == 3);
    int status;
    wait(&status);
    printf("status %d\n", WEXITSTATUS(status));
    return 0;
}
