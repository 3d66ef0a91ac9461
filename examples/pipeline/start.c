/* Runs a pipeline of four programs, as a shell runs these three lines:
       take > readings
       net < readings | sort > sorted
       print < sorted */
#include "arnold.h"

static int64_t open_file(const char *name, int64_t mode) { return open(name, strlen(name), mode); }

static void start(const char *program)
{
    exec(program, strlen(program), 0, 0);
    exit(1);
}

int main(void)
{
    uint8_t status;
    if (fork() == 0) {
        close(CONSOLE_OUT);
        open_file("readings", OPEN_NEW);
        start("take");
    }
    wait(&status);

    int64_t ends = pipe();
    int64_t from = ends & 255, to = ends >> 8;
    if (fork() == 0) {
        close(CONSOLE_IN);
        open_file("readings", OPEN_THERE);
        close(CONSOLE_OUT);
        dup(to);
        close(from);
        close(to);
        start("net");
    }
    if (fork() == 0) {
        close(CONSOLE_IN);
        dup(from);
        close(CONSOLE_OUT);
        open_file("sorted", OPEN_NEW);
        close(from);
        close(to);
        start("sort");
    }
    close(from);
    close(to);
    wait(&status);
    wait(&status);

    if (fork() == 0) {
        close(CONSOLE_IN);
        open_file("sorted", OPEN_THERE);
        start("print");
    }
    wait(&status);
    return 0;
}
