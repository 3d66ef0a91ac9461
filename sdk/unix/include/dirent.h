/* Directories: the machine has none. `opendir` gives NULL, with ENOSYS. */
#ifndef DIRENT_H
#define DIRENT_H

#pragma GCC system_header

#include <sys/types.h>

typedef struct arnold_directory DIR;
struct dirent {
    ino_t d_ino;
    char d_name[65];
};

DIR *opendir(const char *path);
struct dirent *readdir(DIR *directory);
int closedir(DIR *directory);

#endif
