/* The end of the input in the middle of what is typed, and how a program reads bytes as they are. */
#include <arnold_console.h>
#include <stdio.h>
#include <unistd.h>

int main(void)
{
    char bytes[16];
    ssize_t got;
    while ((got = read(0, bytes, sizeof bytes)) > 0)
        printf("%zd ", got);
    printf("end\n");
    got = read(0, bytes, 2);
    printf("%zd %.*s\n", got, (int)got, bytes);
    got = read(0, bytes, sizeof bytes);
    printf("%zd %.*s\n", got, (int)got, bytes);
    arnold_end_of_input = -1;
    got = read(0, bytes, sizeof bytes);
    printf("%zd %d\n", got, got > 0 ? bytes[0] : -1);
    return 0;
}
