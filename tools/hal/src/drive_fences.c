/* Acquire fences: events that the driver signals, some at once, some late by a thread, some never. */
#include "drive.h"

#include <errno.h>
#include <poll.h>
#include <sys/eventfd.h>
#include <time.h>
#include <unistd.h>

uint64_t drive_clock(void)
{
    struct timespec time;

    clock_gettime(CLOCK_MONOTONIC, &time);
    return (uint64_t)time.tv_sec * 1000000 + (uint64_t)time.tv_nsec / 1000;
}

void drive_sleep(unsigned int ms)
{
    struct timespec time = { (time_t)(ms / 1000), (long)(ms % 1000) * 1000000 };

    while (nanosleep(&time, &time) != 0 && errno == EINTR)
        ;
}

bool drive_wait(struct drive *drive, uint64_t until)
{
    struct timespec time = { (time_t)(until / 1000000), (long)(until % 1000000) * 1000 };

    return pthread_cond_timedwait(&drive->changed, &drive->lock, &time) != ETIMEDOUT;
}

static void signal_fence(struct drive_buffer *buffer)
{
    uint64_t one = 1;

    if (buffer->signaller >= 0)
        (void)!write(buffer->signaller, &one, sizeof(one));
    buffer->signal_at = 0;
}

int drive_fence_new(struct drive *drive, struct drive_buffer *buffer, int after_ms)
{
    drive_fence_drop(buffer);
    if (after_ms == DRIVE_NO_FENCE)
        return -1;
    buffer->signaller = eventfd(0, EFD_CLOEXEC | EFD_NONBLOCK);
    if (buffer->signaller < 0)
        return -1;
    if (after_ms == 0)
        signal_fence(buffer);
    else if (after_ms > 0)
        buffer->signal_at = drive_clock() + (uint64_t)after_ms * 1000;
    pthread_cond_broadcast(&drive->changed);
    return dup(buffer->signaller);
}

void drive_fence_drop(struct drive_buffer *buffer)
{
    if (buffer->signaller >= 0)
        close(buffer->signaller);
    buffer->signaller = -1;
    buffer->signal_at = 0;
}

bool drive_is_signalled(int fence)
{
    struct pollfd asked = { fence, POLLIN, 0 };

    return poll(&asked, 1, 0) == 1;
}

/* Signals what is due, and waits for the next. */
static void *signal_late(void *argument)
{
    struct drive *drive = argument;

    pthread_mutex_lock(&drive->lock);
    while (drive->signalling) {
        uint64_t now = drive_clock(), next = now + 1000000;

        for (int i = 0; i < drive->buffer_count; i++) {
            struct drive_buffer *buffer = &drive->buffers[i];

            if (buffer->signal_at != 0 && buffer->signal_at <= now)
                signal_fence(buffer);
            else if (buffer->signal_at != 0 && buffer->signal_at < next)
                next = buffer->signal_at;
        }
        drive_wait(drive, next);
    }
    pthread_mutex_unlock(&drive->lock);
    return NULL;
}

int drive_start_signaller(struct drive *drive)
{
    drive->signalling = true;
    return pthread_create(&drive->signaller, NULL, signal_late, drive);
}

void drive_stop_signaller(struct drive *drive)
{
    pthread_mutex_lock(&drive->lock);
    drive->signalling = false;
    pthread_cond_broadcast(&drive->changed);
    pthread_mutex_unlock(&drive->lock);
    pthread_join(drive->signaller, NULL);
}
