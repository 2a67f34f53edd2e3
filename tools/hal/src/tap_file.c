/* Writes the lines of a log to its file. */
#include "tap_file.h"

#include "tap_line.h"

#include <errno.h>
#include <fcntl.h>
#include <unistd.h>

int tap_file_open(struct tap_file *file, const char *path)
{
    file->descriptor = open(path, O_WRONLY | O_CREAT | O_EXCL | O_APPEND | O_CLOEXEC, 0644);
    file->size = 0;
    file->stopped = false;
    return file->descriptor < 0 ? -1 : 0;
}

void tap_file_write(struct tap_file *file, struct tap_line *line)
{
    ssize_t count;

    if (file->stopped)
        return;
    if (line->length == sizeof(line->text) - 1)
        line->length--;
    line->text[line->length++] = '\n';
    do {
        count = write(file->descriptor, line->text, line->length);
    } while (count < 0 && errno == EINTR);
    if (count == (ssize_t)line->length) {
        file->size += count;
        return;
    }
    file->stopped = true;
    if (count > 0 && ftruncate(file->descriptor, file->size) != 0)
        (void)!write(file->descriptor, "\n", 1);
}

void tap_file_stop(struct tap_file *file, const char *cause)
{
    struct tap_line line;

    tap_line_start(&line, "# the log stops here: %s", cause);
    tap_file_write(file, &line);
    file->stopped = true;
}

void tap_file_close(struct tap_file *file)
{
    if (file->descriptor >= 0)
        close(file->descriptor);
    file->descriptor = -1;
}
