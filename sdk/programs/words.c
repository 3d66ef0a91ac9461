/* Counts lines, words and bytes of what is typed, up to the end of the input. */
#include <ctype.h>
#include <stdbool.h>
#include <stdio.h>

int main(void)
{
    int lines = 0, words = 0, bytes = 0, byte;
    bool is_inside = false;
    while ((byte = getchar()) != EOF) {
        bytes++;
        lines += byte == '\n';
        words += !isspace(byte) && !is_inside;
        is_inside = !isspace(byte);
    }
    printf("%d %d %d\n", lines, words, bytes);
    return 0;
}
