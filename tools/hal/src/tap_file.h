/* The file of a log: whole lines, each by one write, so that none is lost where the process dies. */
#ifndef TAP_FILE_H
#define TAP_FILE_H

#include <stdbool.h>
#include <sys/types.h>

struct tap_line;

struct tap_file {
    int descriptor;
    off_t size;   /* of the whole lines */
    bool stopped; /* nothing is written any more */
};

/* Makes the file, which must not stand yet. 0, or -1 with errno set. */
int tap_file_open(struct tap_file *file, const char *path);

/* Writes the line and its end. Where that fails (a full disk) the log stops behind the last whole line. */
void tap_file_write(struct tap_file *file, struct tap_line *line);

/* Says in a comment why nothing more is written, and stops: a log may stop anywhere, one with a gap accuses wrongly. */
void tap_file_stop(struct tap_file *file, const char *cause);

void tap_file_close(struct tap_file *file);

#endif
