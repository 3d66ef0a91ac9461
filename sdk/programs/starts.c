/* Starts other programs in the place of children, with arguments, an environment, and other descriptors. */
#include <errno.h>
#include <fcntl.h>
#include <stdio.h>
#include <stdlib.h>
#include <string.h>
#include <sys/wait.h>
#include <unistd.h>

static int end_of(pid_t child)
{
    int status;
    waitpid(child, &status, 0);
    return WEXITSTATUS(status);
}

int main(void)
{
    static char long_word[5000];
    fflush(stdout);
    pid_t child = fork();
    if (child == 0) {
        execle("show_words", "show_words", "two words", "", NULL, (char *[]){"A=1", "COLOUR=blue", NULL});
        _exit(99);
    }
    printf("status %d\n", end_of(child));

    int out = open("kept", O_WRONLY | O_CREAT | O_TRUNC | O_CLOEXEC, 0666);
    child = fork();
    if (child == 0) {
        dup2(out, STDOUT_FILENO);
        setenv("COLOUR", "red", 1);
        execlp("show_words", "to a file", NULL);
        _exit(99);
    }
    printf("status %d\n", end_of(child));
    char bytes[64];
    int in = open("kept", O_RDONLY);
    ssize_t length = read(in, bytes, sizeof bytes);
    printf("kept: %.*s", (int)length, bytes);

    printf("%d %s\n", execl("nothing", "nothing", NULL), strerror(errno));
    printf("%d %s\n", execl("kept", "kept", NULL), strerror(errno));
    memset(long_word, 'x', sizeof long_word - 1);
    printf("%d %s\n", execl("show_words", long_word, NULL), strerror(errno));
    return 0;
}
