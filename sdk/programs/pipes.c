/* Pipes between processes: more bytes than a pipe holds, the end of a pipe, and one that nobody reads. */
#include <errno.h>
#include <stdio.h>
#include <string.h>
#include <sys/wait.h>
#include <unistd.h>

static char bytes[10000];

int main(void)
{
    int ends[2];
    pipe(ends);
    if (fork() == 0) {
        close(ends[0]);
        memset(bytes, 'x', sizeof bytes);
        _exit(write(ends[1], bytes, sizeof bytes) == sizeof bytes ? 0 : 1);
    }
    close(ends[1]);
    size_t all = 0;
    ssize_t got;
    while ((got = read(ends[0], bytes, sizeof bytes)) > 0)
        all += (size_t)got;
    int status;
    wait(&status);
    printf("%zu bytes, then %zd; the writer's status %d\n", all, got, WEXITSTATUS(status));

    pipe(ends);
    FILE *reading = fdopen(ends[0], "r"), *writing = fdopen(ends[1], "w");
    fprintf(writing, "a line\nthe next one\n");
    fclose(writing);
    char line[32];
    while (fgets(line, sizeof line, reading) != NULL)
        printf("%s", line);
    fclose(reading);

    pipe(ends);
    close(ends[0]);
    printf("%zd %s\n", write(ends[1], "x", 1), strerror(errno));
    return 0;
}
