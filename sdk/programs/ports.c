/* The machine's ports: one process listens, another connects, and they talk in both directions. */
#include <arnold_ports.h>
#include <errno.h>
#include <stdio.h>
#include <string.h>
#include <sys/wait.h>
#include <unistd.h>

int main(void)
{
    char bytes[16];
    printf("%d %s\n", port_connect(80), strerror(errno));
    int port = port_listen(80);
    printf("%d %s\n", port_listen(80), strerror(errno));
    if (fork() == 0) {
        int side = port_connect(80);
        write(side, "question", 8);
        ssize_t got = read(side, bytes, sizeof bytes);
        printf("the answer is %.*s\n", (int)got, bytes);
        return 0;
    }
    int side = port_accept(port);
    ssize_t got = read(side, bytes, sizeof bytes);
    printf("the question is %.*s\n", (int)got, bytes);
    write(side, "an answer", 9);
    wait(NULL);
    return 0;
}
