/*
 * A small gralloc: a buffer is a file in memory behind a native handle. The driver makes such buffers; the reference
 * HAL takes any whose first descriptor is a file that can be mapped.
 */
#ifndef BUFFER_FILE_H
#define BUFFER_FILE_H

#include <cutils/native_handle.h>
#include <stddef.h>

/* The handle of a new buffer of so many bytes, and its end. NULL: no memory. */
native_handle_t *buffer_file_new(size_t size);
void buffer_file_free(buffer_handle_t handle);

/* How many bytes the buffer has; 0 where its handle has no such file. */
size_t buffer_file_size(buffer_handle_t handle);

/* Its first bytes, to be read and written, until they are let go. NULL: it has fewer, or there is no memory. */
void *buffer_file_map(buffer_handle_t handle, size_t length);
void buffer_file_unmap(void *memory, size_t length);

#endif
