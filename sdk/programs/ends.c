/* The end of a program: functions that wait for it, and streams that nobody closed. */
#include <stdio.h>
#include <stdlib.h>
#include <sys/wait.h>
#include <unistd.h>

static void last(void)
{
    printf("last");
}

static void first(void)
{
    printf("first, ");
}

int main(void)
{
    if (fork() == 0) {
        fprintf(fopen("left", "w"), "written at the end");
        atexit(last);
        atexit(first);
        printf("no line end, ");
        exit(3);
    }
    int status;
    wait(&status);
    char text[32] = "";
    FILE *file = fopen("left", "r");
    if (file != NULL)
        fgets(text, sizeof text, file);
    fprintf(stderr, ", status %d, %s\n", WEXITSTATUS(status), text);
    return 0;
}
