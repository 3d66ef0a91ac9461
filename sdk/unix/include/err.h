/* Messages on standard error, after the name of the program. */
#ifndef ERR_H
#define ERR_H

#pragma GCC system_header

#include <stdarg.h>

void warn(const char *format, ...) __attribute__((format(printf, 1, 2)));
void warnx(const char *format, ...) __attribute__((format(printf, 1, 2)));
void vwarn(const char *format, va_list more) __attribute__((format(printf, 1, 0)));
void vwarnx(const char *format, va_list more) __attribute__((format(printf, 1, 0)));
__attribute__((noreturn)) void err(int status, const char *format, ...) __attribute__((format(printf, 2, 3)));
__attribute__((noreturn)) void errx(int status, const char *format, ...) __attribute__((format(printf, 2, 3)));
__attribute__((noreturn)) void verr(int status, const char *format, va_list more) __attribute__((format(printf, 2, 0)));
__attribute__((noreturn)) void verrx(int status, const char *format, va_list more) __attribute__((format(printf, 2, 0)));

#endif
