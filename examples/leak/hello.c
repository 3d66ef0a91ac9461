/* Greets people. Each line that comes in is a name and a password; the greeting has the name alone. */
#include "arnold.h"

struct person {
    char name[12];
    char password[12];
};

static struct person person;

/* Takes a word into a field, with zeros after it, and returns how long the word is. */
static size_t take_word(char *field, size_t size, const char *text, size_t len)
{
    size_t taken = 0;
    while (taken < len && taken < size && text[taken] > ' ') {
        field[taken] = text[taken];
        taken++;
    }
    for (size_t i = taken; i < size; i++)
        field[i] = 0;
    return taken;
}

/* Puts a text at the end of a line, and returns how long the line is then. */
static size_t put(char *line, size_t len, const char *text)
{
    while (*text != 0)
        line[len++] = *text++;
    return len;
}

static void greet(void)
{
    char line[64];
    size_t len = put(line, 0, "hello ");
    len = put(line, len, person.name);
    len = put(line, len, "\n");
    write(CONSOLE_OUT, line, len);
}

int main(void)
{
    char text[64];
    for (;;) {
        int64_t len = read(CONSOLE_IN, text, sizeof text);
        if (len <= 0)
            return 0;
        size_t name = take_word(person.name, sizeof person.name, text, (size_t)len);
        if (name + 1 < (size_t)len)
            take_word(person.password, sizeof person.password, text + name + 1, (size_t)len - name - 1);
        greet();
    }
}
