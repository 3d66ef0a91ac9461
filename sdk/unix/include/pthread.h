/* Threads: the machine has none. `pthread_create` answers ENOSYS. */
#ifndef PTHREAD_H
#define PTHREAD_H

#pragma GCC system_header

#include <sys/types.h>

typedef unsigned long pthread_t;
typedef int pthread_mutex_t, pthread_attr_t, pthread_mutexattr_t;
#define PTHREAD_MUTEX_INITIALIZER 0

int pthread_create(pthread_t *thread, const pthread_attr_t *with, void *(*run)(void *), void *word);
int pthread_join(pthread_t thread, void **result);
int pthread_detach(pthread_t thread);
pthread_t pthread_self(void);
int pthread_mutex_init(pthread_mutex_t *mutex, const pthread_mutexattr_t *with);
int pthread_mutex_destroy(pthread_mutex_t *mutex);
int pthread_mutex_lock(pthread_mutex_t *mutex);
int pthread_mutex_trylock(pthread_mutex_t *mutex);
int pthread_mutex_unlock(pthread_mutex_t *mutex);

#endif
