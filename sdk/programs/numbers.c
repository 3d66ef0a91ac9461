/* Reads numbers and prints others that it computes from them. */
#include <stdio.h>
#include <stdlib.h>

static char line[32];

static const char *next(void)
{
    return fgets(line, sizeof line, stdin);
}

int main(void)
{
    printf("%d\n", atoi(next()));
    printf("%lu\n", strtoul(next(), NULL, 10) * 3);
    int number = atoi(next());
    printf("%d\n", number * number);
    printf("%d\n", atoi(next()) / 7);
    printf("%d\n", atoi(next()) % 1000);
    printf("%x\n", atoi(next()));
    printf("%.2f\n", strtod(next(), NULL));
    double real = strtod(next(), NULL);
    printf("%.2f\n", real * real);
    return 0;
}
