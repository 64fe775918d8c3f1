#include "say.h"
#include <stdarg.h>
#include <stdio.h>
#include <stdlib.h>

static const char *name = "nandutable";

void say_as(const char *program)
{
    name = program;
}

const char *say_name(void)
{
    return name;
}

static void say_list(const char *format, va_list values)
{
    fprintf(stderr, "%s: ", name);
    vfprintf(stderr, format, values);
    fputc('\n', stderr);
}

void say(const char *format, ...)
{
    va_list values;
    va_start(values, format);
    say_list(format, values);
    va_end(values);
}

_Noreturn void fail(int status, const char *format, ...)
{
    va_list values;
    va_start(values, format);
    say_list(format, values);
    va_end(values);
    exit(status);
}
