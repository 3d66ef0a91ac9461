/* One line, with the name and the arguments that a program has at boot. */
#include <stdio.h>

int main(int count, char **words)
{
    printf("hello from %s", words[0]);
    for (int i = 1; i < count; i++)
        printf(", [%s]", words[i]);
    printf("\n");
    return 0;
}
