/* A list of names and numbers, sorted by name. */
#ifndef LIST_H
#define LIST_H

struct entry {
    struct entry *next;
    long number;
    char name[];
};

struct entry *list_insert(struct entry *head, const char *name, long number);
long list_total(const struct entry *head);
void list_print(const struct entry *head);

#endif
