/* Jumps out of functions, functions that call themselves, and pointers to functions. */
#include <setjmp.h>
#include <stdio.h>
#include <stdlib.h>

static jmp_buf back;

static int ackermann(int m, int n)
{
    return m == 0 ? n + 1 : n == 0 ? ackermann(m - 1, 1) : ackermann(m - 1, ackermann(m, n - 1));
}

static void descend(int depth)
{
    if (depth == 0)
        longjmp(back, 42);
    if (depth > 0)
        descend(depth - 1);
}

static int by_last_digit(const void *a, const void *b)
{
    return *(const int *)a % 10 - *(const int *)b % 10;
}

int main(void)
{
    int reached = setjmp(back);
    if (reached == 0)
        descend(50);
    printf("%d\n", reached);
    printf("%d\n", ackermann(2, 3));
    int numbers[] = {19, 22, 35, 41, 58, 60};
    qsort(numbers, 6, sizeof *numbers, by_last_digit);
    for (int i = 0; i < 6; i++)
        printf("%d ", numbers[i]);
    printf("\n");
    return 0;
}
