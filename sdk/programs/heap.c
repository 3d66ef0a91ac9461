/* Memory from malloc: it is used, freed, used again, and ends. */
#include <errno.h>
#include <stdio.h>
#include <stdlib.h>
#include <string.h>

int main(void)
{
    char *a = malloc(1000), *b = calloc(10, 100);
    memset(a, 'a', 1000);
    printf("%d %d\n", b[0], b[999]);
    a = realloc(a, 5000);
    printf("%c%c\n", a[0], a[999]);
    free(b);
    free(a);

    char *blocks[64];
    for (int round = 0; round < 3; round++) {
        for (int i = 0; i < 64; i++)
            blocks[i] = malloc(1500);
        printf("%s\n", blocks[63] != NULL ? "64 blocks" : "none");
        for (int i = 0; i < 64; i++)
            free(blocks[i]);
    }
    errno = 0;
    printf("%s %d\n", malloc(300000) == NULL ? "no room" : "room", errno == ENOMEM);
    return 0;
}
