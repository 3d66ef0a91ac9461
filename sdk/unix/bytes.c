/* Single bytes of streams. The C library's own functions cut a byte off from a number, which computes a new one: under the
   linkage `copy` it has no sources then. These move it. */
#include <stdio.h>

/* The byte that was put back, if one was: its place in `unget`, and the place that says so. */
static unsigned char *put_back(FILE *file)
{
    return (unsigned char *)&file->unget;
}

int fgetc(FILE *file)
{
    if (!(file->flags & __SRD))
        return EOF;
    if (file->unget != 0) {
        int byte = put_back(file)[0];
        file->unget = 0;
        return byte;
    }
    int byte = file->get(file);
    if (byte >= 0)
        return byte;
    file->flags |= byte == _FDEV_ERR ? __SERR : __SEOF;
    return EOF;
}

int fputc(int byte, FILE *file)
{
    if (!(file->flags & __SWR))
        return EOF;
    int (*put)(int, FILE *) = (int (*)(int, FILE *))(void (*)(void))file->put;
    return put(byte, file) < 0 ? EOF : (unsigned char)byte;
}

int ungetc(int byte, FILE *file)
{
    if (!(file->flags & __SRD) || byte == EOF || file->unget != 0)
        return EOF;
    put_back(file)[0] = (unsigned char)byte;
    put_back(file)[1] = 1;
    file->flags &= ~__SEOF;
    return (unsigned char)byte;
}

#undef getc
int getc(FILE *file)
{
    return fgetc(file);
}

#undef putc
int putc(int byte, FILE *file)
{
    return fputc(byte, file);
}
