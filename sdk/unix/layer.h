/* What the files of the Unix layer share. */
#ifndef UNIX_LAYER_H
#define UNIX_LAYER_H

#include "../kernel.h"
#include <stdbool.h>
#include <stddef.h>

/* Limits of the kernel. */
enum { DESCRIPTORS = 16, MOST_TRANSFER = 65536, MOST_FILE = 1048576, MOST_BLOCK = 4096, MOST_PATH = 64 };

/* What a description is. OTHER is the end of a pipe, a port, a side of a connection, or what isn't known. */
enum kind { CLOSED, CONSOLE, PLAIN, OTHER };

/* A description as this process knows it. Where others may have moved the position, it is asked for anew. */
struct description {
    int64_t position;
    uint8_t kind;
    uint8_t holders;
    uint8_t flags;
    bool is_shared;
};

/* A descriptor: the place of its description, counted from 1, or 0 where it isn't open; and whether exec closes it. */
struct descriptor {
    uint8_t place;
    bool is_closed_by_exec;
};

/* All that a process knows of its descriptors. A program that starts another one hands it on. */
struct table {
    struct description descriptions[DESCRIPTORS];
    struct descriptor descriptors[DESCRIPTORS];
};
extern struct table unix_table;

/* The flags of a description that opens keep: whether it is read, whether it is written, whether each write goes to the end. */
enum { READS = 1, WRITES = 2, APPENDS = 4 };

/* The argument block that a program hands to the one that it starts: this, the arguments, the environment. Each text ends
   with a zero. */
struct block {
    char name[8];
    uint32_t arguments;
    uint32_t variables;
    struct table table;
    char texts[];
};
#define BLOCK_NAME "ARNBLK01"

/* The words of a program that is booted: its name, and what `cc --argument` was given. */
extern const char *const unix_boot_words[];

/* The name by which the program was started. */
extern const char *unix_name;

/* The result of a call, or -1 with errno. */
int64_t unix_result(int64_t result);
int unix_fails(int error);

/* The table at boot, after a start by a program that hands on another block, and after a fork. */
void unix_table_at_boot(void);
void unix_table_unknown(void);
void unix_table_after_fork(bool is_child);
void unix_table_after_exec(void);

#endif
