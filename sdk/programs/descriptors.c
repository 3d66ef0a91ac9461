/* Unix calls on files: flags, positions, lengths, copies of descriptors, errors. */
#include <errno.h>
#include <fcntl.h>
#include <stdio.h>
#include <string.h>
#include <sys/stat.h>
#include <unistd.h>

static void say(const char *what, long result)
{
    printf("%s %ld%s%s\n", what, result, result < 0 ? " " : "", result < 0 ? strerror(errno) : "");
}

int main(void)
{
    char bytes[32];
    struct stat found;
    say("open", open("f", O_RDWR));
    int f = open("f", O_RDWR | O_CREAT | O_EXCL, 0600);
    say("open", f);
    say("again", open("f", O_WRONLY | O_CREAT | O_EXCL, 0600));
    say("write", write(f, "0123456789", 10));
    say("seek", lseek(f, -4, SEEK_END));
    say("read", read(f, bytes, sizeof bytes));
    say("at end", read(f, bytes, sizeof bytes));
    say("here", lseek(f, 0, SEEK_CUR));
    say("too far", lseek(f, 11, SEEK_SET));
    say("before", lseek(f, -1, SEEK_SET));
    fstat(f, &found);
    printf("length %ld, a file %d\n", (long)found.st_size, S_ISREG(found.st_mode));

    int g = dup(f);
    say("dup", g);
    lseek(f, 3, SEEK_SET);
    say("shared", lseek(g, 0, SEEK_CUR));
    say("dup2", dup2(f, 9));
    say("read", read(9, bytes, 2));
    printf("%.2s\n", bytes);
    say("dup2 of none", dup2(12, 9));
    say("still", lseek(9, 0, SEEK_CUR));
    say("F_DUPFD", fcntl(f, F_DUPFD, 11));
    say("close", close(9));
    say("closed", close(9));
    say("pread", pread(f, bytes, 3, 7));
    say("here", lseek(f, 0, SEEK_CUR));

    int a = open("f", O_WRONLY | O_APPEND);
    say("append", write(a, "ab", 2));
    say("not to read", read(a, bytes, 1));
    stat("f", &found);
    printf("length %ld\n", (long)found.st_size);
    int emptied = open("f", O_WRONLY | O_TRUNC);
    say("not to seek", lseek(1, 0, SEEK_SET));
    stat("f", &found);
    printf("length %ld, console %d %d\n", (long)found.st_size, isatty(1), isatty(emptied));
    say("access", access("f", R_OK));
    say("unlink", unlink("f"));
    say("access", access("f", R_OK));
    return 0;
}
