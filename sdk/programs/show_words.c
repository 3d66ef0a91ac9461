/* Prints its arguments and its environment, and what it reads. Other programs start it. */
#include <stdio.h>
#include <stdlib.h>
#include <unistd.h>

int main(int count, char **words)
{
    for (int i = 0; i < count; i++)
        printf("[%s]", words[i]);
    printf(" COLOUR=%s\n", getenv("COLOUR") != NULL ? getenv("COLOUR") : "none");
    if (count > 1 && words[1][0] == '<') {
        char line[64];
        while (fgets(line, sizeof line, stdin) != NULL)
            printf("< %s", line);
    }
    return 5;
}
