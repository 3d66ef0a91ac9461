/* Reads lines with a name and a number, and prints them sorted by name, with the total. */
#include "list.h"
#include <stdio.h>

int main(void)
{
    char name[32];
    long number;
    struct entry *head = NULL;
    while (scanf("%31s %ld", name, &number) == 2)
        head = list_insert(head, name, number);
    list_print(head);
    return 0;
}
