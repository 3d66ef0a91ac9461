/* What the machine can't do: time, threads, sockets with addresses, directories, links, modes. Each fails with ENOSYS. */
#include <errno.h>
#include <stddef.h>

#define FAILS(name)                                                                                                        \
    long name(void)                                                                                                        \
    {                                                                                                                      \
        errno = ENOSYS;                                                                                                    \
        return -1;                                                                                                         \
    }

#define GIVES_NONE(name)                                                                                                   \
    void *name(void)                                                                                                       \
    {                                                                                                                      \
        errno = ENOSYS;                                                                                                    \
        return NULL;                                                                                                       \
    }

/* Time */
FAILS(gettimeofday)
FAILS(settimeofday)
FAILS(clock_gettime)
FAILS(clock_settime)
FAILS(clock_getres)
FAILS(times)
FAILS(nanosleep)
FAILS(usleep)
FAILS(getrusage)
FAILS(getitimer)
FAILS(setitimer)
FAILS(utime)
FAILS(utimes)

/* Sockets, and waiting for several descriptors */
FAILS(socket)
FAILS(socketpair)
FAILS(bind)
FAILS(listen)
FAILS(accept)
FAILS(connect)
FAILS(shutdown)
FAILS(send)
FAILS(recv)
FAILS(sendto)
FAILS(recvfrom)
FAILS(getsockopt)
FAILS(setsockopt)
FAILS(getsockname)
FAILS(getpeername)
FAILS(select)
FAILS(poll)
FAILS(ioctl)

/* Names, directories, links, modes */
FAILS(rename)
FAILS(link)
FAILS(symlink)
FAILS(readlink)
FAILS(mkdir)
FAILS(rmdir)
FAILS(chdir)
FAILS(chmod)
FAILS(fchmod)
FAILS(chown)
FAILS(fchown)
FAILS(truncate)
FAILS(ftruncate)
FAILS(fsync)
FAILS(fdatasync)
FAILS(closedir)
GIVES_NONE(opendir)
GIVES_NONE(readdir)
GIVES_NONE(getcwd)

/* Processes and signals */
FAILS(getppid)
FAILS(setpgid)
FAILS(setsid)
FAILS(getpgrp)
FAILS(sigprocmask)
FAILS(sigpending)
FAILS(sigsuspend)
FAILS(pause)
FAILS(nice)
FAILS(pclose)
FAILS(getrlimit)
FAILS(setrlimit)
FAILS(getentropy)
GIVES_NONE(popen)

/* These can't say that they fail but by what they return. */
unsigned sleep(unsigned seconds)
{
    errno = ENOSYS;
    return seconds;
}

unsigned alarm(unsigned seconds)
{
    (void)seconds;
    errno = ENOSYS;
    return 0;
}

void *mmap(void *at, size_t length)
{
    (void)at, (void)length;
    errno = ENOSYS;
    return (void *)-1;
}
FAILS(munmap)

FAILS(setuid)
FAILS(setgid)
FAILS(seteuid)
FAILS(setegid)
FAILS(setreuid)
FAILS(setregid)

/* There are no users and no modes of new files. */
int getuid(void) { return 0; }
int geteuid(void) { return 0; }
int getgid(void) { return 0; }
int getegid(void) { return 0; }
int umask(int mask) { return (void)mask, 0; }

/* Threads: what makes them fails, and the other calls do what one thread alone needs. */
int pthread_create(void *thread, const void *with, void *(*run)(void *), void *word)
{
    (void)thread, (void)with, (void)run, (void)word;
    return ENOSYS;
}
int pthread_join(unsigned long thread, void **result) { return (void)thread, (void)result, ESRCH; }
int pthread_detach(unsigned long thread) { return (void)thread, ESRCH; }
unsigned long pthread_self(void) { return 1; }
int pthread_mutex_init(int *mutex, const void *with) { return (void)with, *mutex = 0; }
int pthread_mutex_destroy(int *mutex) { return (void)mutex, 0; }
int pthread_mutex_lock(int *mutex) { return *mutex != 0 ? EDEADLK : (*mutex = 1, 0); }
int pthread_mutex_trylock(int *mutex) { return *mutex != 0 ? EBUSY : (*mutex = 1, 0); }
int pthread_mutex_unlock(int *mutex) { return *mutex = 0; }

/* The machine's limits. */
long sysconf(int name)
{
    switch (name) {
    case 0: /* _SC_ARG_MAX */
        return 4096;
    case 1: /* _SC_CHILD_MAX */
        return 64;
    case 4: /* _SC_OPEN_MAX */
        return 16;
    default:
        errno = EINVAL;
        return -1;
    }
}
