/* Streams on files: what is written is read, in the middle too, and errors say what they are. */
#include <errno.h>
#include <stdio.h>
#include <string.h>

static void show(const char *name)
{
    char line[64];
    FILE *file = fopen(name, "r");
    if (file == NULL) {
        printf("%s: %s\n", name, strerror(errno));
        return;
    }
    while (fgets(line, sizeof line, file) != NULL)
        printf("%s: %s", name, line);
    printf("%s: end %d, error %d\n", name, feof(file) != 0, ferror(file) != 0);
    fclose(file);
}

int main(void)
{
    show("notes");
    FILE *file = fopen("notes", "w");
    fprintf(file, "one %d\ntwo %d\nthree %d\n", 1, 2, 3);
    printf("at %ld\n", ftell(file));
    fclose(file);
    show("notes");

    file = fopen("notes", "r+");
    fseek(file, 6, SEEK_SET);
    fputs("TWO", file);
    fseek(file, -2, SEEK_END);
    int byte = fgetc(file);
    printf("at %ld: %c\n", ftell(file), byte);
    fclose(file);
    file = fopen("notes", "a");
    fputs("four 4\n", file);
    fclose(file);
    show("notes");

    fclose(fopen("notes", "w"));
    show("notes");
    printf("%d %d\n", remove("notes"), remove("notes"));
    show("notes");
    show("a name of more than sixty-four bytes, which no file of this machine has");

    /* The text of a file that the session added. */
    show("added");
    return 0;
}
