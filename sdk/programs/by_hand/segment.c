/* A segment that a process shares with its children: each adds to what the one before has left there. */
#include "arnold.h"

static void add(char letter)
{
    SEGMENT[1 + SEGMENT[0]] = (uint8_t)letter;
    SEGMENT[0]++;
}

int main(void)
{
    uint8_t status;
    if (shm() != 0 || shm() != E_BAD_ARGUMENT)
        return 1;
    for (char letter = 'a'; letter < 'e'; letter++) {
        if (fork() == 0) {
            add(letter);
            exit(0);
        }
        if (wait(&status) < 0 || status != 0)
            return 2;
    }
    add('\n');
    return (int)write(CONSOLE_OUT, SEGMENT + 1, SEGMENT[0]) - 5;
}
