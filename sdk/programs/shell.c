/* A shell: lines of programs with words, with pipes between them, input from a file and output to one. */
#include <fcntl.h>
#include <stdio.h>
#include <stdlib.h>
#include <string.h>
#include <sys/wait.h>
#include <unistd.h>

static void use(int descriptor, int as)
{
    if (descriptor == as)
        return;
    dup2(descriptor, as);
    close(descriptor);
}

/* Starts one program of a line. */
static pid_t start(char *text, int in, int out, int other)
{
    pid_t child = fork();
    if (child != 0)
        return child;
    if (other >= 0)
        close(other);
    use(in, STDIN_FILENO);
    use(out, STDOUT_FILENO);
    char *words[16];
    int count = 0;
    for (char *word = strtok(text, " \n"); word != NULL && count < 15; word = strtok(NULL, " \n")) {
        if (word[0] == '<' && word[1] != 0)
            use(open(word + 1, O_RDONLY), STDIN_FILENO);
        else if (word[0] == '>')
            use(open(word + 1, O_WRONLY | O_CREAT | O_TRUNC, 0666), STDOUT_FILENO);
        else
            words[count++] = word;
    }
    words[count] = NULL;
    execvp(words[0], words);
    perror(words[0]);
    _exit(127);
}

static void run(char *line)
{
    int in = dup(STDIN_FILENO), ends[2], status = 0;
    char *rest = line;
    pid_t last = 0;
    while (rest != NULL) {
        char *text = strsep(&rest, "|");
        ends[0] = -1;
        ends[1] = STDOUT_FILENO;
        if (rest != NULL)
            pipe(ends);
        last = start(text, in, ends[1], ends[0]);
        close(in);
        if (rest != NULL)
            close(ends[1]);
        in = ends[0];
    }
    waitpid(last, &status, 0);
    while (wait(NULL) > 0)
        ;
    if (status != 0)
        printf("status %d\n", WEXITSTATUS(status));
}

int main(void)
{
    char line[128];
    while (fgets(line, sizeof line, stdin) != NULL)
        run(line);
    printf("done\n");
    return 0;
}
