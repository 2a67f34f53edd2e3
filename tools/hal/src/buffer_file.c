/* A small gralloc: files in memory behind native handles. */
#include "buffer_file.h"

#include <stdlib.h>
#include <sys/mman.h>
#include <sys/stat.h>
#include <unistd.h>

/* One descriptor for each plane; equal ones mean that the planes lie behind each other. */
#define HANDLE_DESCRIPTORS 2

native_handle_t *buffer_file_new(size_t size)
{
    native_handle_t *handle = malloc(sizeof(*handle) + HANDLE_DESCRIPTORS * sizeof(int));
    int file = memfd_create("buffer", MFD_CLOEXEC);

    if (handle == NULL || file < 0 || ftruncate(file, (off_t)size) != 0) {
        free(handle);
        if (file >= 0)
            close(file);
        return NULL;
    }
    handle->version = sizeof(*handle);
    handle->numFds = HANDLE_DESCRIPTORS;
    handle->numInts = 0;
    for (int i = 0; i < HANDLE_DESCRIPTORS; i++)
        handle->data[i] = file;
    return handle;
}

void buffer_file_free(buffer_handle_t handle)
{
    if (handle == NULL)
        return;
    close(handle->data[0]);
    free((void *)handle);
}

size_t buffer_file_size(buffer_handle_t handle)
{
    struct stat file;

    if (handle == NULL || handle->numFds < 1 || fstat(handle->data[0], &file) != 0 || file.st_size < 0)
        return 0;
    return (size_t)file.st_size;
}

void *buffer_file_map(buffer_handle_t handle, size_t length)
{
    void *memory;

    if (length == 0 || buffer_file_size(handle) < length)
        return NULL;
    memory = mmap(NULL, length, PROT_READ | PROT_WRITE, MAP_SHARED, handle->data[0], 0);
    return memory == MAP_FAILED ? NULL : memory;
}

void buffer_file_unmap(void *memory, size_t length)
{
    if (memory != NULL)
        munmap(memory, length);
}
