/* The calls of Arnold's kernel, for programs in C. docs/KERNEL.md says what each does and when it is refused.

   Each call answers a number of at least 0, or an error below 0. Paths are bytes with a length. */
#ifndef ARNOLD_H
#define ARNOLD_H

#include "kernel.h"
#include <stddef.h>
#include <stdint.h>

/* The descriptors that are open at boot, each on the console. */
enum { CONSOLE_IN = 0, CONSOLE_OUT = 1, CONSOLE_ERROR = 2 };

__attribute__((noreturn)) static inline void exit(int status)
{
    arnold_call(CALL_EXIT, status, 0, 0, 0);
    __builtin_unreachable();
}

/* Ends in the child as well, with 0. */
static inline int64_t fork(void) { return arnold_call(CALL_FORK, 0, 0, 0, 0); }

/* Answers only where it fails: else the image in the file is started, and its main gets the block. */
static inline int64_t exec(const char *path, size_t path_len, const void *block, size_t block_len)
{
    return arnold_call(CALL_EXEC, (int64_t)path, (int64_t)path_len, (int64_t)block, (int64_t)block_len);
}

/* The number of a child that has ended, whose status it puts. */
static inline int64_t wait(uint8_t *status) { return arnold_call(CALL_WAIT, (int64_t)status, 0, 0, 0); }

static inline int64_t getpid(void) { return arnold_call(CALL_GETPID, 0, 0, 0, 0); }
static inline int64_t kill(int64_t pid, int64_t signal) { return arnold_call(CALL_KILL, pid, signal, 0, 0); }

/* A handler ends by sigreturn. 0 means none. */
static inline int64_t sigaction(int64_t signal, void (*handler)(void))
{
    return arnold_call(CALL_SIGACTION, signal, (int64_t)handler, 0, 0);
}

static inline int64_t sigreturn(void) { return arnold_call(CALL_SIGRETURN, 0, 0, 0, 0); }

static inline int64_t open(const char *path, size_t path_len, int64_t mode)
{
    return arnold_call(CALL_OPEN, (int64_t)path, (int64_t)path_len, mode, 0);
}

static inline int64_t close(int64_t descriptor) { return arnold_call(CALL_CLOSE, descriptor, 0, 0, 0); }

static inline int64_t read(int64_t descriptor, void *bytes, size_t len)
{
    return arnold_call(CALL_READ, descriptor, (int64_t)bytes, (int64_t)len, 0);
}

static inline int64_t write(int64_t descriptor, const void *bytes, size_t len)
{
    return arnold_call(CALL_WRITE, descriptor, (int64_t)bytes, (int64_t)len, 0);
}

static inline int64_t seek(int64_t descriptor, int64_t position)
{
    return arnold_call(CALL_SEEK, descriptor, position, 0, 0);
}

static inline int64_t dup(int64_t descriptor) { return arnold_call(CALL_DUP, descriptor, 0, 0, 0); }

/* The descriptor to read from, and 256 times the one to write to. */
static inline int64_t pipe(void) { return arnold_call(CALL_PIPE, 0, 0, 0, 0); }

static inline int64_t unlink(const char *path, size_t path_len)
{
    return arnold_call(CALL_UNLINK, (int64_t)path, (int64_t)path_len, 0, 0);
}

/* A segment of 65,536 bytes at SEGMENT, which children share. */
#define SEGMENT ((uint8_t *)0x80000000)
static inline int64_t shm(void) { return arnold_call(CALL_SHM, 0, 0, 0, 0); }

static inline int64_t listen(int64_t port) { return arnold_call(CALL_LISTEN, port, 0, 0, 0); }
static inline int64_t connect(int64_t port) { return arnold_call(CALL_CONNECT, port, 0, 0, 0); }
static inline int64_t accept(int64_t descriptor) { return arnold_call(CALL_ACCEPT, descriptor, 0, 0, 0); }
static inline int64_t device(int64_t number) { return arnold_call(CALL_DEVICE, number, 0, 0, 0); }
static inline int64_t yield(void) { return arnold_call(CALL_YIELD, 0, 0, 0, 0); }

/* What compilers call by themselves (bytes.c). */
void *memcpy(void *to, const void *from, size_t len);
void *memmove(void *to, const void *from, size_t len);
void *memset(void *to, int byte, size_t len);
int memcmp(const void *a, const void *b, size_t len);
size_t strlen(const char *text);

#endif
