/* Gives numbers to streams, buffers and fences, and finds them again. */
#include "tap_names.h"

#include <errno.h>
#include <fcntl.h>
#include <stdlib.h>
#include <sys/stat.h>
#include <sys/syscall.h>
#include <sys/uio.h>
#include <unistd.h>

/* What kcmp compares: open files. It stands in linux/kcmp.h, which not every system has. */
#define COMPARE_FILES 0

/* ---- streams and buffers */

static bool give(struct tap_map *map, const void *address, uint32_t *next, uint32_t *number)
{
    if (tap_map_find(map, address, number))
        return true;
    if (!tap_map_put(map, address, *next))
        return false;
    *number = (*next)++;
    return true;
}

bool tap_names_stream(struct tap_names *names, const camera3_stream_t *stream, uint32_t *number)
{
    return give(&names->streams, stream, &names->next_stream, number);
}

bool tap_names_is_bare(const camera3_stream_buffer_t *target)
{
    return target->buffer == NULL || *target->buffer == NULL;
}

bool tap_names_target(struct tap_names *names, const camera3_stream_buffer_t *target, uint32_t *number)
{
    bool bare = tap_names_is_bare(target);

    if (!give(bare ? &names->bare : &names->handles, bare ? (const void *)target->stream : *target->buffer,
              &names->next_buffer, number))
        return false;
    return target->buffer == NULL || tap_map_put(&names->places, target->buffer, *number);
}

bool tap_names_known_stream(const struct tap_names *names, const camera3_stream_t *stream, uint32_t *number)
{
    return tap_map_find(&names->streams, stream, number);
}

/* The handle at a place that a device named, which needn't be one: the system reads it, so that nothing can fail. */
static buffer_handle_t handle_at(buffer_handle_t *place)
{
    buffer_handle_t handle = NULL;
    struct iovec here = { &handle, sizeof(handle) }, there = { place, sizeof(handle) };

    if (process_vm_readv(getpid(), &here, 1, &there, 1, 0) == (ssize_t)sizeof(handle))
        return handle;
    return errno == EPERM || errno == ENOSYS ? *place : NULL;
}

bool tap_names_known_buffer(const struct tap_names *names, const camera3_stream_buffer_t *returned, uint32_t *number)
{
    buffer_handle_t handle;

    if (returned->buffer == NULL)
        return tap_map_find(&names->bare, returned->stream, number);
    handle = handle_at(returned->buffer);
    if (handle != NULL && tap_map_find(&names->handles, handle, number))
        return true;
    return tap_map_find(&names->places, returned->buffer, number);
}

/* ---- fences */

/* Both have a device and an inode of their own, and these are equal. Fences of the kernel have none of their own. */
static bool is_same_inode(int one, int other)
{
    struct stat first, second;

    return fstat(one, &first) == 0 && fstat(other, &second) == 0 && (first.st_mode & S_IFMT) != 0
           && first.st_dev == second.st_dev && first.st_ino == second.st_ino;
}

/* The descriptor is of the same open file as the fence, and so of the same sync object. */
static bool is_same_object(const struct tap_fence *fence, int descriptor)
{
    pid_t self = getpid();
    long order = syscall(SYS_kcmp, self, self, COMPARE_FILES, fence->kept, descriptor);

    if (order >= 0)
        return order == 0;
    return errno != EBADF && (is_same_inode(fence->kept, descriptor) || fence->given == descriptor);
}

static bool has_room(struct tap_names *names)
{
    size_t room = names->fence_room == 0 ? 32 : names->fence_room * 2;
    struct tap_fence *larger;

    if (names->fence_count < names->fence_room)
        return true;
    larger = realloc(names->fences, room * sizeof(*larger));
    if (larger == NULL)
        return false;
    names->fences = larger;
    names->fence_room = room;
    return true;
}

bool tap_names_acquire(struct tap_names *names, uint32_t frame, uint32_t buffer, int fence, int64_t *number)
{
    struct tap_fence *added;

    *number = TAP_NO_FENCE;
    if (fence == -1)
        return true;
    if (!has_room(names))
        return false;
    for (size_t i = 0; i < names->fence_count && *number == TAP_NO_FENCE; i++)
        if (is_same_object(&names->fences[i], fence))
            *number = names->fences[i].number;
    if (*number == TAP_NO_FENCE)
        *number = names->next_fence++;
    added = &names->fences[names->fence_count++];
    *added = (struct tap_fence){ frame, buffer, (uint32_t)*number, fence, fcntl(fence, F_DUPFD_CLOEXEC, 3) };
    return true;
}

int64_t tap_names_release(const struct tap_names *names, uint32_t frame, int fence)
{
    int64_t found = TAP_FOREIGN_FENCE;

    if (fence == -1)
        return TAP_NO_FENCE;
    for (size_t i = 0; i < names->fence_count; i++) {
        if (found != TAP_FOREIGN_FENCE && names->fences[i].frame != frame)
            continue;
        if (is_same_object(&names->fences[i], fence))
            found = names->fences[i].number;
    }
    return found;
}

/* Keeps the fences for which `keeps` holds. */
static void forget(struct tap_names *names, bool (*keeps)(const struct tap_fence *, uint32_t, uint32_t), uint32_t frame,
                   uint32_t buffer)
{
    size_t kept = 0;

    for (size_t i = 0; i < names->fence_count; i++) {
        if (keeps(&names->fences[i], frame, buffer))
            names->fences[kept++] = names->fences[i];
        else if (names->fences[i].kept >= 0)
            close(names->fences[i].kept);
    }
    names->fence_count = kept;
}

static bool is_other_buffer(const struct tap_fence *fence, uint32_t frame, uint32_t buffer)
{
    return fence->frame != frame || fence->buffer != buffer;
}

static bool is_other_frame(const struct tap_fence *fence, uint32_t frame, uint32_t buffer)
{
    (void)buffer;
    return fence->frame != frame;
}

static bool is_none(const struct tap_fence *fence, uint32_t frame, uint32_t buffer)
{
    (void)fence, (void)frame, (void)buffer;
    return false;
}

void tap_names_forget_buffer(struct tap_names *names, uint32_t frame, uint32_t buffer)
{
    forget(names, is_other_buffer, frame, buffer);
}

void tap_names_forget_frame(struct tap_names *names, uint32_t frame)
{
    forget(names, is_other_frame, frame, 0);
}

void tap_names_forget_fences(struct tap_names *names)
{
    forget(names, is_none, 0, 0);
}

void tap_names_free(struct tap_names *names)
{
    tap_names_forget_fences(names);
    free(names->fences);
    names->fences = NULL;
    names->fence_room = 0;
    tap_map_free(&names->streams);
    tap_map_free(&names->handles);
    tap_map_free(&names->places);
    tap_map_free(&names->bare);
}
