/* The list: each entry is allocated, and is inserted where its name belongs. */
#include "list.h"
#include <stdlib.h>
#include <string.h>

struct entry *list_insert(struct entry *head, const char *name, long number)
{
    struct entry **place = &head;
    while (*place && strcmp((*place)->name, name) < 0)
        place = &(*place)->next;
    struct entry *entry = malloc(sizeof *entry + strlen(name) + 1);
    if (!entry)
        abort();
    entry->next = *place;
    entry->number = number;
    strcpy(entry->name, name);
    *place = entry;
    return head;
}

long list_total(const struct entry *head)
{
    long total = 0;
    for (; head; head = head->next)
        total += head->number;
    return total;
}
