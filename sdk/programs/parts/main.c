/* A program in three files: C, a header of its own, and assembler. */
#include "sum.h"
#include <stdio.h>

int main(void)
{
    printf("%d %d %s\n", sum(40, START), twice(21), TITLE);
    return 0;
}
