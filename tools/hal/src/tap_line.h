/* A line of a log while it is put together. */
#ifndef TAP_LINE_H
#define TAP_LINE_H

#include <stddef.h>

/* The longest line, a configuration of 16 streams with numbers of ten digits, has less than 1,200 characters. */
#define TAP_LINE_MOST 2048

struct tap_line {
    size_t length;
    char text[TAP_LINE_MOST];
};

void tap_line_start(struct tap_line *line, const char *format, ...) __attribute__((format(printf, 2, 3)));

/* What doesn't fit is left out. */
void tap_line_add(struct tap_line *line, const char *format, ...) __attribute__((format(printf, 2, 3)));

#endif
