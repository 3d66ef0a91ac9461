/* The C library's functions on texts, regular expressions among them. */
#define _GNU_SOURCE
#include <ctype.h>
#include <fnmatch.h>
#include <regex.h>
#include <stdio.h>
#include <stdlib.h>
#include <string.h>

int main(void)
{
    char text[64] = "one,two;three";
    char *rest = text, *word;
    while ((word = strtok_r(rest, ",;", &rest)) != NULL)
        printf("%s.", word);
    printf("\n%s %s %s\n", strstr("haystack", "st"), strrchr("a/b/c", '/'), strpbrk("key=value", "="));
    printf("%d %d %d\n", strcmp("a", "b") < 0, strncasecmp("HELLO", "help", 3), memcmp("abc", "abd", 3) < 0);
    char *made;
    asprintf(&made, "%s-%d", "part", 3);
    printf("%s %zu %s\n", made, strlen(made), strerror(2));
    for (char *at = made; *at != 0; at++)
        putchar(toupper(*at));
    putchar('\n');

    regex_t pattern;
    regmatch_t found[2];
    regcomp(&pattern, "([a-z]+)@[a-z]+\\.org", REG_EXTENDED);
    const char *mail = "write to ann@example.org today";
    if (regexec(&pattern, mail, 2, found, 0) == 0)
        printf("%.*s\n", (int)(found[1].rm_eo - found[1].rm_so), mail + found[1].rm_so);
    printf("%d %d\n", fnmatch("*.c", "texts.c", 0), fnmatch("*.c", "texts.h", 0) != 0);
    return 0;
}
