/* Hands typed bytes on by many functions of the C library: each byte that is printed is a copy of a typed one. */
#define _GNU_SOURCE
#include <stdio.h>
#include <stdlib.h>
#include <string.h>

int main(void)
{
    char *line = NULL, text[64], word[32];
    size_t size = 0;
    getline(&line, &size, stdin);
    fputs(line, stdout);
    printf("%s", line);
    for (char *at = line; *at != 0; at++)
        putchar(*at);
    for (char *at = line; *at != '\n'; at++)
        printf("%c", *at);
    puts("");

    strcpy(text, line);
    strcat(text, line);
    printf("%.5s\n", text + 3);
    snprintf(text, sizeof text, "%s", line);
    fwrite(text, 1, strlen(text), stdout);
    char *copy = strdup(line);
    memmove(copy + 1, copy, 5);
    puts(copy);

    FILE *file = fopen("f", "w+");
    fputs(line, file);
    rewind(file);
    fgets(text, sizeof text, file);
    fputs(text, stdout);
    rewind(file);
    text[fread(text, 1, 5, file)] = 0;
    puts(text);

    scanf("%31s", word);
    puts(word);
    getchar();
    ungetc(getchar(), stdin);
    fgets(text, sizeof text, stdin);
    memcpy(word, text, sizeof word);
    puts(strtok(word, "\n"));
    return 0;
}
