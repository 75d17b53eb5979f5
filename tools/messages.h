/*
 * How a word of the tool ends, and what it says on the standard error.
 */
#ifndef MESSAGES_H
#define MESSAGES_H

#include <errno.h>
#include <stdarg.h>
#include <stdio.h>
#include <string.h>

#include "octets.h"

/* The exit codes: all is fine; something was found; the use was wrong, or a file. */
enum { FINE = 0, FOUND = 1, WRONG = 2 };

/* Says something behind the name of the program. */
static inline void say_values(const char *format, va_list values)
{
    fputs("hub: ", stderr);
    vfprintf(stderr, format, values);
    fputc('\n', stderr);
}

/* Says what there is to know. */
static inline void note(const char *format, ...)
{
    va_list values;
    va_start(values, format);
    say_values(format, values);
    va_end(values);
}

/* Says what is wrong. */
static inline int wrong(const char *format, ...)
{
    va_list values;
    va_start(values, format);
    say_values(format, values);
    va_end(values);
    return WRONG;
}

/* Says why a whole file was not read, by errno. */
static inline int unreadable(const char *path)
{
    return errno == EFBIG ? wrong("%s: more than %d MiB, too long to be read", path, (int)MEBIBYTES) : wrong("%s: %s", path, strerror(errno));
}

#endif
