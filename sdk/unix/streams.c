/* The standard streams, streams on files, and what the C library lacks: all streams are written out at the program's end. */
#include "layer.h"
#include <errno.h>
#include <fcntl.h>
#include <stdio-bufio.h>
#include <stdio.h>
#include <stdlib.h>
#include <unistd.h>

/* A stream on a descriptor that `fdopen` made, in a list of all. */
struct stream {
    struct __file_bufio file;
    struct stream *next;
};
static struct stream *streams;

extern int __posix_sflags(const char *mode, int *flags);

static int close_standard(FILE *file)
{
    int result = fflush(file);
    int closed = close(((struct __file_bufio *)file)->fd);
    return result < 0 ? result : closed;
}

#define STANDARD(descriptor, buffer, direction)                                                                            \
    {                                                                                                                      \
        .xfile = {.cfile = {.file = FDEV_SETUP_STREAM(__bufio_put, __bufio_get, __bufio_flush,                             \
                                (direction) | __SCLOSE | __SEXT | __SBUF),                                                 \
                      .close = close_standard},                                                                            \
                  .seek = __bufio_seek,                                                                                    \
                  .setvbuf = __bufio_setvbuf},                                                                             \
        .fd = descriptor, .bflags = __BLBF, .buf = buffer, .size = sizeof buffer, .read = read, .write = write,            \
        .lseek = lseek, .close = close                                                                                     \
    }

static char in_buffer[512], out_buffer[512], error_buffer[128];
static struct __file_bufio in = STANDARD(0, in_buffer, __SRD);
static struct __file_bufio out = STANDARD(1, out_buffer, __SWR);
static struct __file_bufio error = STANDARD(2, error_buffer, __SWR);
FILE *const stdin = (FILE *)&in;
FILE *const stdout = (FILE *)&out;
FILE *const stderr = (FILE *)&error;

/* On the console a line is written out at its end, else when the buffer is full. */
__attribute__((constructor)) static void choose_buffering(void)
{
    int before = errno;
    if (!isatty(STDOUT_FILENO))
        out.bflags &= ~__BLBF;
    errno = before;
}

static int flush_all(void)
{
    int result = fflush(stdout) | fflush(stderr);
    for (struct stream *stream = streams; stream != NULL; stream = stream->next)
        result |= fflush((FILE *)stream);
    return result < 0 ? EOF : 0;
}

__attribute__((destructor)) static void flush_at_exit(void)
{
    flush_all();
}

int fflush(FILE *file)
{
    if (file == NULL)
        return flush_all();
    return file->flush == NULL ? 0 : file->flush(file);
}

/* Closes a stream that `fdopen` made. */
static int close_stream(FILE *file)
{
    for (struct stream **place = &streams; *place != NULL; place = &(*place)->next)
        if (*place == (struct stream *)file) {
            *place = (*place)->next;
            break;
        }
    return __bufio_close(file);
}

FILE *fdopen(int descriptor, const char *mode)
{
    int open_flags, flags = __posix_sflags(mode, &open_flags);
    if (flags == 0) {
        errno = EINVAL;
        return NULL;
    }
    struct stream *stream = calloc(1, sizeof *stream + BUFSIZ);
    if (stream == NULL) {
        errno = ENOMEM;
        return NULL;
    }
    stream->file = (struct __file_bufio)FDEV_SETUP_BUFIO(
        descriptor, (char *)(stream + 1), BUFSIZ, read, write, lseek, close, flags, 0);
    stream->file.xfile.cfile.close = close_stream;
    __bufio_lock_init((FILE *)stream);
    stream->next = streams;
    streams = stream;
    if (open_flags & O_APPEND)
        fseeko((FILE *)stream, 0, SEEK_END);
    return (FILE *)stream;
}

/* Reads up to a byte, which is kept, into memory that grows. */
ssize_t getdelim(char **line, size_t *size, int last, FILE *file)
{
    size_t length = 0;
    int byte = 0;
    while (byte != last && (byte = getc(file)) != EOF) {
        if (*line == NULL || length + 2 > *size) {
            size_t larger = *line == NULL || *size < 64 ? 128 : *size * 2;
            char *moved = realloc(*line, larger);
            if (moved == NULL)
                return unix_fails(ENOMEM);
            *line = moved;
            *size = larger;
        }
        (*line)[length++] = (char)byte;
    }
    if (length == 0)
        return -1;
    (*line)[length] = 0;
    return (ssize_t)length;
}

ssize_t getline(char **line, size_t *size, FILE *file)
{
    return getdelim(line, size, '\n', file);
}
