/* What the C library's <stdio.h> lacks. */
#pragma GCC system_header
#include_next <stdio.h>
#ifndef ARNOLD_STDIO_H
#define ARNOLD_STDIO_H

#include <sys/types.h>

ssize_t getdelim(char **line, size_t *size, int last, FILE *file);
ssize_t getline(char **line, size_t *size, FILE *file);
/* There is no shell: these fail with ENOSYS. */
FILE *popen(const char *command, const char *mode);
int pclose(FILE *file);

#endif
