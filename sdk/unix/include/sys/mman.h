/* `mmap` and `munmap` fail with ENOSYS. */
#ifndef SYS_MMAN_H
#define SYS_MMAN_H

#pragma GCC system_header

#include <sys/types.h>

enum { PROT_NONE = 0, PROT_READ = 1, PROT_WRITE = 2, PROT_EXEC = 4 };
enum { MAP_SHARED = 1, MAP_PRIVATE = 2, MAP_FIXED = 16, MAP_ANONYMOUS = 32 };
#define MAP_FAILED ((void *)-1)

void *mmap(void *at, size_t length, int protection, int flags, int descriptor, off_t offset);
int munmap(void *at, size_t length);

#endif
