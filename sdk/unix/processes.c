/* Processes, signals and ports. */
#include "layer.h"
#include <arnold_ports.h>
#include <errno.h>
#include <sched.h>
#include <signal.h>
#include <stdarg.h>
#include <string.h>
#include <sys/wait.h>
#include <unistd.h>

extern void unix_handler(void);
extern int unix_other(int64_t descriptor);

/* Children that have ended and for which nobody has waited yet: the kernel reported them while another one was waited for. */
static struct {
    int pid;
    uint8_t status;
} ended[64];
static int ended_count;

void _exit(int status)
{
    arnold_call(CALL_EXIT, status, 0, 0, 0);
    __builtin_unreachable();
}

pid_t getpid(void)
{
    return (pid_t)arnold_call(CALL_GETPID, 0, 0, 0, 0);
}

pid_t fork(void)
{
    int64_t child = arnold_call(CALL_FORK, 0, 0, 0, 0);
    if (child >= 0)
        unix_table_after_fork(child == 0);
    if (child == 0)
        ended_count = 0;
    return (pid_t)unix_result(child);
}

pid_t vfork(void)
{
    return fork();
}

/* Adds a list of texts to a block. Returns the block's length then, or 0 where it has no room. */
static size_t add_texts(char *block, size_t length, char *const *texts, uint32_t *count)
{
    *count = 0;
    for (; texts != NULL && texts[*count] != NULL; ++*count) {
        size_t size = strlen(texts[*count]) + 1;
        if (length + size > MOST_BLOCK)
            return 0;
        memcpy(block + length, texts[*count], size);
        length += size;
    }
    return length;
}

int execve(const char *path, char *const arguments[], char *const variables[])
{
    union {
        struct block block;
        char bytes[MOST_BLOCK];
    } all = {.block = {.name = BLOCK_NAME, .table = unix_table}};
    size_t length = add_texts(all.bytes, offsetof(struct block, texts), arguments, &all.block.arguments);
    if (length > 0)
        length = add_texts(all.bytes, length, variables, &all.block.variables);
    if (length == 0)
        return unix_fails(E2BIG);
    if (*path == 0)
        return unix_fails(ENOENT);
    if (length < sizeof(struct block))
        length = sizeof(struct block);
    return (int)unix_result(arnold_call(CALL_EXEC, (int64_t)path, (int64_t)strlen(path), (int64_t)&all, (int64_t)length));
}

int execv(const char *path, char *const arguments[])
{
    return execve(path, arguments, environ);
}

/* All files are in one place: there is no path to search. */
int execvp(const char *path, char *const arguments[])
{
    return execve(path, arguments, environ);
}

/* Counts the arguments of a list that NULL ends. */
static int count_arguments(va_list more)
{
    int count = 1;
    while (va_arg(more, char *) != NULL)
        count++;
    return count;
}

static int exec_list(const char *path, const char *first, va_list more, bool has_variables)
{
    va_list again;
    va_copy(again, more);
    int count = count_arguments(again);
    va_end(again);
    char *arguments[count + 1];
    arguments[0] = (char *)first;
    for (int i = 1; i <= count; i++)
        arguments[i] = va_arg(more, char *);
    return execve(path, arguments, has_variables ? va_arg(more, char **) : environ);
}

int execl(const char *path, const char *first, ...)
{
    va_list more;
    va_start(more, first);
    int result = exec_list(path, first, more, false);
    va_end(more);
    return result;
}

int execlp(const char *path, const char *first, ...)
{
    va_list more;
    va_start(more, first);
    int result = exec_list(path, first, more, false);
    va_end(more);
    return result;
}

int execle(const char *path, const char *first, ...)
{
    va_list more;
    va_start(more, first);
    int result = exec_list(path, first, more, true);
    va_end(more);
    return result;
}

/* Takes the child out of those that have ended, if it is there. */
static int take_ended(int pid, uint8_t *status)
{
    for (int i = 0; i < ended_count; i++)
        if (pid == -1 || ended[i].pid == pid) {
            int found = ended[i].pid;
            *status = ended[i].status;
            ended[i] = ended[--ended_count];
            return found;
        }
    return 0;
}

pid_t waitpid(pid_t pid, int *status, int options)
{
    if (pid == 0 || pid < -1)
        return unix_fails(ENOSYS);
    uint8_t byte;
    int64_t child = take_ended(pid, &byte);
    if (child == 0 && (options & WNOHANG))
        return unix_fails(ENOSYS);
    while (child == 0) {
        child = arnold_call(CALL_WAIT, (int64_t)&byte, 0, 0, 0);
        if (child > 0 && pid != -1 && child != pid) {
            ended[ended_count].pid = (int)child;
            ended[ended_count++].status = byte;
            child = 0;
        }
    }
    if (child > 0 && status != NULL)
        *status = byte << 8;
    return (pid_t)unix_result(child);
}

pid_t wait(int *status)
{
    return waitpid(-1, status, 0);
}

int sched_yield(void)
{
    return (int)unix_result(arnold_call(CALL_YIELD, 0, 0, 0, 0));
}

/* Signals */

static _sig_func_ptr handlers[32];

/* What is called for every signal that has a handler. */
void unix_signalled(int signal)
{
    if (handlers[signal] != SIG_DFL && handlers[signal] != SIG_IGN)
        handlers[signal](signal);
}

/* The kernel calls unix_handler only while there is a handler for it: it is there before the call, and goes behind it. */
_sig_func_ptr signal(int number, _sig_func_ptr handler)
{
    int64_t address = handler == SIG_DFL ? 0 : (int64_t)unix_handler;
    if (number < 1 || number > 31) {
        errno = EINVAL;
        return SIG_ERR;
    }
    _sig_func_ptr before = handlers[number];
    if (address != 0)
        handlers[number] = handler;
    if (unix_result(arnold_call(CALL_SIGACTION, number, address, 0, 0)) < 0) {
        handlers[number] = before;
        return SIG_ERR;
    }
    handlers[number] = handler;
    return before;
}

int sigaction(int number, const struct sigaction *action, struct sigaction *before)
{
    if (number < 1 || number > 31)
        return unix_fails(EINVAL);
    _sig_func_ptr handler = handlers[number];
    if (action != NULL && signal(number, action->sa_handler) == SIG_ERR)
        return -1;
    if (before != NULL)
        *before = (struct sigaction){.sa_handler = handler};
    return 0;
}

int kill(pid_t pid, int number)
{
    return (int)unix_result(arnold_call(CALL_KILL, pid, number, 0, 0));
}

int raise(int number)
{
    return kill(getpid(), number);
}

/* Ends with the status that the machine gives a process which a signal ends. */
void abort(void)
{
    _exit(128 + SIGABRT);
}

/* Ports */

int port_listen(int port)
{
    return unix_other(arnold_call(CALL_LISTEN, port, 0, 0, 0));
}

int port_connect(int port)
{
    return unix_other(arnold_call(CALL_CONNECT, port, 0, 0, 0));
}

int port_accept(int descriptor)
{
    return unix_other(arnold_call(CALL_ACCEPT, descriptor, 0, 0, 0));
}
