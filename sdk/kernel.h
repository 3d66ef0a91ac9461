/* How a program calls Arnold's kernel: the numbers of the calls and of the errors, and the call itself.
   docs/KERNEL.md says what each call does and when it is refused. */
#ifndef ARNOLD_KERNEL_H
#define ARNOLD_KERNEL_H

#include <stdint.h>

enum {
    E_NO_FILE = -2,
    E_NO_PROCESS = -3,
    E_INTERRUPTED = -4,
    E_DEVICE_FAULT = -5,
    E_NOT_AN_IMAGE = -8,
    E_BAD_DESCRIPTOR = -9,
    E_NO_CHILD = -10,
    E_NO_PROCESS_ROOM = -11,
    E_NO_ROOM = -12,
    E_BAD_ADDRESS = -14,
    E_EXISTS = -17,
    E_NO_DEVICE = -19,
    E_BAD_ARGUMENT = -22,
    E_TOO_MANY_DESCRIPTORS = -24,
    E_BROKEN_PIPE = -32,
    E_NO_SUCH_CALL = -38,
    E_PORT_IN_USE = -98,
    E_REFUSED = -111,
};

enum {
    CALL_EXIT = 1,
    CALL_FORK,
    CALL_EXEC,
    CALL_WAIT,
    CALL_GETPID,
    CALL_KILL,
    CALL_SIGACTION,
    CALL_SIGRETURN,
    CALL_OPEN,
    CALL_CLOSE,
    CALL_READ,
    CALL_WRITE,
    CALL_SEEK,
    CALL_DUP,
    CALL_PIPE,
    CALL_UNLINK,
    CALL_SHM,
    CALL_LISTEN,
    CALL_CONNECT,
    CALL_ACCEPT,
    CALL_DEVICE,
    CALL_YIELD,
};

/* Modes of open. */
enum { OPEN_THERE = 0, OPEN_NEW = 1 };

static inline int64_t arnold_call(int64_t number, int64_t a, int64_t b, int64_t c, int64_t d)
{
    register int64_t a0 __asm__("a0") = a;
    register int64_t a1 __asm__("a1") = b;
    register int64_t a2 __asm__("a2") = c;
    register int64_t a3 __asm__("a3") = d;
    register int64_t a7 __asm__("a7") = number;
    __asm__ volatile("ecall" : "+r"(a0) : "r"(a1), "r"(a2), "r"(a3), "r"(a7) : "memory");
    return a0;
}

#endif
