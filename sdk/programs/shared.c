/* A position in a file that processes share, and what each of them adds at the end. */
#include <fcntl.h>
#include <stdio.h>
#include <sys/stat.h>
#include <sys/wait.h>
#include <unistd.h>

int main(void)
{
    char bytes[8];
    struct stat found;
    int f = open("f", O_RDWR | O_CREAT, 0600), a = open("f", O_WRONLY | O_APPEND);
    write(f, "0123456789", 10);
    lseek(f, 1, SEEK_SET);
    fflush(stdout);
    if (fork() == 0) {
        read(f, bytes, 3);
        write(a, "child", 5);
        _exit(0);
    }
    wait(NULL);
    printf("at %ld\n", (long)lseek(f, 0, SEEK_CUR));
    write(a, "parent", 6);
    read(f, bytes, 2);
    printf("%.2s, at %ld\n", bytes, (long)lseek(f, 0, SEEK_CUR));
    fstat(f, &found);
    printf("length %ld, at %ld\n", (long)found.st_size, (long)lseek(f, -1, SEEK_CUR));
    printf("%zd %.*s\n", pread(f, bytes, 8, 12), 8, bytes);
    return 0;
}
