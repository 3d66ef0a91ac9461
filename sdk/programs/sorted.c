/* Sorts the lines that are typed. */
#define _GNU_SOURCE
#include <stdio.h>
#include <stdlib.h>
#include <string.h>

static int compare(const void *a, const void *b)
{
    return strcmp(*(char *const *)a, *(char *const *)b);
}

int main(void)
{
    char *lines[100], *line = NULL;
    size_t count = 0, size = 0;
    while (count < 100 && getline(&line, &size, stdin) > 0)
        lines[count++] = strdup(line);
    qsort(lines, count, sizeof *lines, compare);
    for (size_t i = 0; i < count; i++)
        fputs(lines[i], stdout);
    return 0;
}
