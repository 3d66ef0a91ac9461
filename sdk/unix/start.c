/* Starts a program: makes argv and environ, then calls main. */
#include "layer.h"
#include <stdlib.h>
#include <string.h>

extern void __libc_init_array(void);
extern int main(int, char **, char **);
extern char **environ;

struct table unix_table;
const char *unix_name = "";

static int count_of(const char *const *words)
{
    int count = 0;
    while (words[count] != NULL)
        count++;
    return count;
}

/* Puts the addresses of texts that follow each other, and NULL. Returns what comes after the last text. */
static char *put_addresses(char **addresses, size_t count, char *text)
{
    for (size_t i = 0; i < count; i++) {
        addresses[i] = text;
        text += strlen(text) + 1;
    }
    addresses[count] = NULL;
    return text;
}

__attribute__((noreturn)) static void run(int count, char **words, char **variables)
{
    environ = variables;
    if (count > 0)
        unix_name = words[0];
    __libc_init_array();
    exit(main(count, words, variables));
}

__attribute__((noreturn)) static void start_at_boot(void)
{
    int count = count_of(unix_boot_words);
    char *words[count + 1], *no_variables[] = {NULL};
    memcpy(words, unix_boot_words, sizeof words);
    run(count, words, no_variables);
}

__attribute__((noreturn)) static void start_from(struct block *block)
{
    char *words[block->arguments + 1], *variables[block->variables + 1];
    char *text = put_addresses(words, block->arguments, block->texts);
    put_addresses(variables, block->variables, text);
    memcpy(&unix_table, &block->table, sizeof unix_table);
    unix_table_after_exec();
    run((int)block->arguments, words, variables);
}

__attribute__((noreturn)) void unix_start(struct block *block, size_t length)
{
    if (length >= sizeof *block && memcmp(block->name, BLOCK_NAME, sizeof block->name) == 0)
        start_from(block);
    if (length == 0)
        unix_table_at_boot();
    else
        unix_table_unknown();
    start_at_boot();
}
