/* Prints the list and its total. */
#include "list.h"
#include <stdio.h>

void list_print(const struct entry *head)
{
    for (const struct entry *entry = head; entry; entry = entry->next)
        printf("%-8s %6ld\n", entry->name, entry->number);
    printf("total    %6ld\n", list_total(head));
}
