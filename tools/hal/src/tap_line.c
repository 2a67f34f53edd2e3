/* Puts a line of a log together. */
#include "tap_line.h"

#include <stdarg.h>
#include <stdio.h>

static void add(struct tap_line *line, const char *format, va_list values)
{
    size_t room = sizeof(line->text) - line->length;
    int count = vsnprintf(line->text + line->length, room, format, values);

    if (count < 0)
        return;
    line->length += (size_t)count < room ? (size_t)count : room - 1;
}

void tap_line_start(struct tap_line *line, const char *format, ...)
{
    va_list values;

    line->length = 0;
    va_start(values, format);
    add(line, format, values);
    va_end(values);
}

void tap_line_add(struct tap_line *line, const char *format, ...)
{
    va_list values;

    va_start(values, format);
    add(line, format, values);
    va_end(values);
}
