/* Pictures: how many bytes one has, and, where it is asked for, a file for each that comes back good. */
#include "drive.h"

#include <stdio.h>

size_t drive_picture_size(const struct drive *drive, const camera3_stream_t *stream)
{
    size_t pixels = (size_t)stream->width * stream->height;

    switch (stream->format) {
    case HAL_PIXEL_FORMAT_BLOB: return (size_t)drive->jpeg_size;
    case HAL_PIXEL_FORMAT_RAW16: return pixels * 2;
    default: return pixels * 3 / 2;
    }
}

void drive_write_picture(const struct drive *drive, const struct drive_buffer *buffer, uint32_t frame)
{
    const camera3_stream_t *stream = &drive->streams[buffer->stream].stream;
    size_t size = drive_picture_size(drive, stream);
    char path[512];
    void *bytes;
    FILE *file;

    if (drive->pictures == NULL)
        return;
    snprintf(path, sizeof(path), "%s/%u-%d-%X-%ux%u", drive->pictures, frame, buffer->stream, stream->format,
             stream->width, stream->height);
    bytes = buffer_file_map(buffer->handle, size);
    file = fopen(path, "wx");
    if (bytes == NULL || file == NULL || fwrite(bytes, 1, size, file) != size)
        fprintf(stderr, "hal_drive: %s: not written\n", path);
    if (file != NULL && fclose(file) != 0)
        fprintf(stderr, "hal_drive: %s: not written whole\n", path);
    buffer_file_unmap(bytes, size);
}
