/*
 * The thread of the small camera HAL that makes the frames, one at each tick: it exposes the next frame whose acquire
 * fences are signalled, and finishes the one before. In a flush it finishes the frame that is exposed and fails all
 * others.
 */
#include "fake_camera.h"

#include <errno.h>
#include <poll.h>
#include <stdlib.h>
#include <time.h>
#include <unistd.h>

static uint64_t milliseconds(void)
{
    struct timespec time;

    clock_gettime(CLOCK_MONOTONIC, &time);
    return (uint64_t)time.tv_sec * 1000 + (uint64_t)time.tv_nsec / 1000000;
}

/* ---- the frames that are open */

static struct fake_frame *next_frame(struct fake_camera *camera)
{
    struct fake_frame *frame = camera->first;

    while (frame != NULL && frame->exposed)
        frame = frame->next;
    return frame;
}

static void remove_frame(struct fake_camera *camera, struct fake_frame *frame)
{
    struct fake_frame **place = &camera->first;

    pthread_mutex_lock(&camera->lock);
    while (*place != frame)
        place = &(*place)->next;
    *place = frame->next;
    camera->open--;
    camera->finished++;
    pthread_cond_broadcast(&camera->changed);
    pthread_mutex_unlock(&camera->lock);
    fake_frame_free(frame);
}

static void take_turn(struct fake_camera *camera, struct fake_frame *frame)
{
    pthread_mutex_lock(&camera->lock);
    frame->exposed = true;
    pthread_mutex_unlock(&camera->lock);
}

/* ---- acquire fences */

/* Waits so long, and closes those that are signalled. True: all are. */
static bool are_signalled(struct fake_frame *frame, int wait_ms)
{
    bool all = true;

    for (uint32_t i = 0; i < frame->count; i++) {
        struct pollfd fence = { frame->targets[i].acquire, POLLIN, 0 };

        if (fence.fd < 0)
            continue;
        if (poll(&fence, 1, all ? wait_ms : 0) == 1) {
            close(fence.fd);
            frame->targets[i].acquire = -1;
        } else
            all = false;
    }
    return all;
}

/* Frames are wanted back. */
static bool is_hurried(struct fake_camera *camera)
{
    bool hurried;

    pthread_mutex_lock(&camera->lock);
    hurried = camera->flushing || camera->stopping;
    pthread_mutex_unlock(&camera->lock);
    return hurried;
}

/* Waits until the fences are signalled; not longer than the camera waits, and not in a flush. */
static bool wait_for_fences(struct fake_camera *camera, struct fake_frame *frame)
{
    uint64_t end = milliseconds() + camera->options.fence_ms;

    while (!are_signalled(frame, 2)) {
        if (milliseconds() >= end)
            return false;
        if (is_hurried(camera))
            return false;
    }
    return true;
}

/* ---- the death of the device */

static bool finish(struct fake_camera *camera, struct fake_frame *frame);

static void hand_back_all(struct fake_camera *camera)
{
    struct fake_frame *frame;

    if (camera->exposing != NULL)
        finish(camera, camera->exposing);
    frame = fake_tell_late(camera);
    if (frame != NULL)
        remove_frame(camera, frame);
    for (;;) {
        pthread_mutex_lock(&camera->lock);
        frame = next_frame(camera);
        pthread_mutex_unlock(&camera->lock);
        if (frame == NULL)
            return;
        take_turn(camera, frame);
        fake_fail(camera, frame);
        remove_frame(camera, frame);
    }
}

/* Nothing more is accepted; then all frames go back; then it is told. */
static void die(struct fake_camera *camera)
{
    uint32_t number;

    pthread_mutex_lock(&camera->lock);
    camera->dying = true;
    number = camera->last_number;
    pthread_cond_broadcast(&camera->changed);
    pthread_mutex_unlock(&camera->lock);
    if (!fake_breaks(camera, FAKE_FAILED_WITH_FRAMES))
        hand_back_all(camera);
    fake_tell_error(camera, 0, NULL, CAMERA3_MSG_ERROR_DEVICE);
    if (fake_breaks(camera, FAKE_CALLBACK_AFTER_FAILURE))
        fake_tell_error(camera, number, NULL, CAMERA3_MSG_ERROR_RESULT);
    pthread_mutex_lock(&camera->lock);
    camera->dead = true;
    pthread_cond_broadcast(&camera->changed);
    pthread_mutex_unlock(&camera->lock);
}

/* ---- turns */

/* True: the frame is over. It isn't where a part of it is kept back. */
static bool finish(struct fake_camera *camera, struct fake_frame *frame)
{
    struct fake_late before = camera->late;
    bool over = fake_finish(camera, frame);

    if (camera->exposing == frame)
        camera->exposing = NULL;
    if (before.frame != NULL && before.frame != frame && fake_overtakes(frame, &before)) {
        struct fake_frame *late = fake_tell_late(camera);

        if (late != NULL)
            remove_frame(camera, late);
    }
    if (over)
        remove_frame(camera, frame);
    return over;
}

/* Waits for the next tick, or until frames are wanted back. */
static void pause_frame(struct fake_camera *camera)
{
    struct timespec end;
    uint64_t nanoseconds;

    clock_gettime(CLOCK_MONOTONIC, &end);
    nanoseconds = (uint64_t)end.tv_nsec + (uint64_t)camera->options.frame_us * 1000;
    end.tv_sec += (time_t)(nanoseconds / 1000000000);
    end.tv_nsec = (long)(nanoseconds % 1000000000);
    pthread_mutex_lock(&camera->lock);
    while (!camera->flushing && !camera->stopping)
        if (pthread_cond_timedwait(&camera->changed, &camera->lock, &end) == ETIMEDOUT)
            break;
    pthread_mutex_unlock(&camera->lock);
}

/* Where buffers go back early, a frame that fails whole goes back at its exposure too: the next mustn't overtake it. */
static void expose(struct fake_camera *camera, struct fake_frame *frame)
{
    struct fake_frame *before = camera->exposing;

    take_turn(camera, frame);
    fake_expose(camera, frame);
    if (before != NULL)
        finish(camera, before);
    if (camera->options.early && frame->fate == FAKE_NO_REQUEST)
        finish(camera, frame);
    else
        camera->exposing = frame;
}

/* The frame's fences weren't signalled in time: in a flush it goes back as all others, else it fails alone. */
static void give_up(struct fake_camera *camera, struct fake_frame *frame)
{
    if (is_hurried(camera))
        return;
    take_turn(camera, frame);
    fake_fail(camera, frame);
    remove_frame(camera, frame);
}

/* One that is to die with frames waits until it has some. */
static bool is_to_die(struct fake_camera *camera)
{
    bool ready;

    pthread_mutex_lock(&camera->lock);
    ready = camera->options.die_after != 0 && camera->finished >= camera->options.die_after
            && (camera->open != 0 || !fake_breaks(camera, FAKE_FAILED_WITH_FRAMES));
    pthread_mutex_unlock(&camera->lock);
    return ready;
}

static void make_turn(struct fake_camera *camera, struct fake_frame *next)
{
    if (next != NULL && are_signalled(next, 0))
        expose(camera, next);
    else if (camera->exposing != NULL)
        finish(camera, camera->exposing);
    else if (next != NULL && wait_for_fences(camera, next))
        expose(camera, next);
    else if (next != NULL)
        give_up(camera, next);
    else {
        struct fake_frame *late = fake_tell_late(camera);

        if (late != NULL)
            remove_frame(camera, late);
    }
    if (is_to_die(camera))
        die(camera);
}

/* Waits until there is something to do. False: the worker is to stop. */
static bool wait_for_work(struct fake_camera *camera, struct fake_frame **next, bool *flushing)
{
    bool goes_on;

    pthread_mutex_lock(&camera->lock);
    while (!camera->stopping && (camera->open == 0 || camera->dead))
        pthread_cond_wait(&camera->changed, &camera->lock);
    goes_on = !camera->stopping;
    *next = next_frame(camera);
    *flushing = camera->flushing;
    pthread_mutex_unlock(&camera->lock);
    return goes_on;
}

void *fake_work(void *argument)
{
    struct fake_camera *camera = argument;
    struct fake_frame *next;
    bool flushing;

    while (wait_for_work(camera, &next, &flushing)) {
        if (flushing) {
            hand_back_all(camera);
            continue;
        }
        pause_frame(camera);
        if (!is_hurried(camera))
            make_turn(camera, next);
    }
    while (camera->first != NULL) {
        next = camera->first;
        camera->first = next->next;
        fake_frame_free(next);
    }
    camera->open = 0;
    return NULL;
}
