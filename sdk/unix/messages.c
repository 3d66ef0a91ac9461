/* Messages of programs on standard error: err, warn and their kin. */
#include "layer.h"
#include <err.h>
#include <errno.h>
#include <stdio.h>
#include <stdlib.h>
#include <string.h>

static void print(const char *format, va_list more, const char *reason)
{
    fprintf(stderr, "%s: ", unix_name);
    if (format != NULL)
        vfprintf(stderr, format, more);
    if (reason != NULL)
        fprintf(stderr, "%s%s", format != NULL ? ": " : "", reason);
    fputc('\n', stderr);
}

void vwarn(const char *format, va_list more)
{
    print(format, more, strerror(errno));
}

void vwarnx(const char *format, va_list more)
{
    print(format, more, NULL);
}

void verr(int status, const char *format, va_list more)
{
    vwarn(format, more);
    exit(status);
}

void verrx(int status, const char *format, va_list more)
{
    vwarnx(format, more);
    exit(status);
}

void warn(const char *format, ...)
{
    va_list more;
    va_start(more, format);
    vwarn(format, more);
    va_end(more);
}

void warnx(const char *format, ...)
{
    va_list more;
    va_start(more, format);
    vwarnx(format, more);
    va_end(more);
}

void err(int status, const char *format, ...)
{
    va_list more;
    va_start(more, format);
    verr(status, format, more);
}

void errx(int status, const char *format, ...)
{
    va_list more;
    va_start(more, format);
    verrx(status, format, more);
}
