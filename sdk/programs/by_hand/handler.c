/* A handler in C: it prints, and ends by sigreturn. A second signal, which it sends itself, comes once it has ended. */
#include "arnold.h"

static void print(const char *text) { write(CONSOLE_OUT, text, strlen(text)); }

static void handle_second(void)
{
    print("second\n");
    sigreturn();
}

static void handle_first(void)
{
    print("first\n");
    kill(getpid(), 2);
    print("first ends\n");
    sigreturn();
}

int main(void)
{
    if (sigaction(1, handle_first) != 0 || sigaction(2, handle_second) != 0)
        return 1;
    if (kill(getpid(), 1) != 0)
        return 2;
    print("main goes on\n");
    if (sigreturn() != E_BAD_ARGUMENT || sigaction(9, handle_first) != E_BAD_ARGUMENT || kill(7, 1) != E_NO_PROCESS)
        return 3;
    print("main ends\n");
    return 0;
}
