/*
 * What the small camera HAL tells of its frames: shutters, metadata, buffers and errors; and how each rule is broken
 * where that is asked for. A frame that is whole has its shutter and first part at its exposure, and the rest when it
 * is finished.
 */
#include "fake_camera.h"

#include <sys/eventfd.h>
#include <stdlib.h>
#include <time.h>
#include <unistd.h>

#define UNKNOWN_STATUS 7
#define FAR_FRAME 0x40000000u /* no script comes so far */

/* ---- single callbacks */

static uint64_t now(void)
{
    struct timespec time;

    clock_gettime(CLOCK_MONOTONIC, &time);
    return (uint64_t)time.tv_sec * 1000000000u + (uint64_t)time.tv_nsec;
}

void fake_tell_shutter(struct fake_camera *camera, uint32_t number)
{
    camera3_notify_msg_t message = { .type = CAMERA3_MSG_SHUTTER };

    message.message.shutter.frame_number = number;
    message.message.shutter.timestamp = now();
    camera->callbacks->notify(camera->callbacks, &message);
}

void fake_tell_error(struct fake_camera *camera, uint32_t number, camera3_stream_t *stream, int code)
{
    camera3_notify_msg_t message = { .type = CAMERA3_MSG_ERROR };

    message.message.error.frame_number = number;
    message.message.error.error_stream = stream;
    message.message.error.error_code = code;
    camera->callbacks->notify(camera->callbacks, &message);
}

static void tell_result(struct fake_camera *camera, uint32_t number, uint32_t partial, const camera_metadata_t *pack,
                        uint32_t count, const camera3_stream_buffer_t *buffers)
{
    camera3_capture_result_t result = {
        .frame_number = number,
        .result = pack,
        .num_output_buffers = count,
        .output_buffers = count == 0 ? NULL : buffers,
        .partial_result = partial,
    };

    camera->callbacks->process_capture_result(camera->callbacks, &result);
}

static void tell_part(struct fake_camera *camera, const struct fake_frame *frame, uint32_t partial)
{
    tell_result(camera, frame->number, partial, camera->part, 0, NULL);
}

/* ---- buffers */

static void mark_back(struct fake_camera *camera, struct fake_target *target)
{
    pthread_mutex_lock(&camera->lock);
    target->back = true;
    pthread_mutex_unlock(&camera->lock);
}

/* The release fence of a failed buffer: its acquire fence, where that wasn't waited for. The framework owns it then. */
static int release_of(const struct fake_camera *camera, const struct fake_frame *frame, struct fake_target *target)
{
    int fence = target->acquire;

    target->acquire = -1;
    if (fake_breaks_with(camera, frame, FAKE_RELEASE_FENCE)) {
        if (fence != -1)
            close(fence);
        return eventfd(1, EFD_CLOEXEC | EFD_NONBLOCK);
    }
    return fence;
}

static camera3_stream_buffer_t returned_of(struct fake_camera *camera, const struct fake_frame *frame,
                                           struct fake_target *target, bool failed)
{
    camera3_stream_buffer_t buffer = {
        .stream = target->stream, .buffer = target->buffer, .acquire_fence = -1, .release_fence = -1
    };

    buffer.status = failed ? CAMERA3_BUFFER_STATUS_ERROR : CAMERA3_BUFFER_STATUS_OK;
    if (failed)
        buffer.release_fence = release_of(camera, frame, target);
    if (fake_breaks_with(camera, frame, FAKE_BUFFER_STATUS))
        buffer.status = UNKNOWN_STATUS;
    if (fake_breaks_with(camera, frame, FAKE_ACQUIRE_FENCE))
        buffer.acquire_fence = 0;
    mark_back(camera, target);
    return buffer;
}

static void tell_buffer_error(struct fake_camera *camera, const struct fake_frame *frame,
                              const struct fake_target *target)
{
    if (!fake_breaks_with(camera, frame, FAKE_FAILED_WITHOUT_NOTICE))
        fake_tell_error(camera, frame->number, target->stream, CAMERA3_MSG_ERROR_BUFFER);
    if (fake_breaks_with(camera, frame, FAKE_ERROR_TWICE))
        fake_tell_error(camera, frame->number, target->stream, CAMERA3_MSG_ERROR_BUFFER);
    if (fake_breaks_with(camera, frame, FAKE_ERROR_UNKNOWN_STREAM))
        fake_tell_error(camera, frame->number, NULL, CAMERA3_MSG_ERROR_BUFFER);
}

/* One result with the buffer, and with the pack of the number where there is one. */
static void tell_buffer(struct fake_camera *camera, struct fake_frame *frame, struct fake_target *target,
                        uint32_t partial, const camera_metadata_t *pack)
{
    bool failed = target->failed && !fake_breaks_with(camera, frame, FAKE_GOOD_AFTER_ERROR);
    camera3_stream_buffer_t buffers[2];

    buffers[0] = buffers[1] = returned_of(camera, frame, target, failed);
    tell_result(camera, frame->number, partial, pack, fake_breaks_with(camera, frame, FAKE_NOT_AT_DEVICE) ? 2 : 1,
                buffers);
    if (fake_breaks_with(camera, frame, FAKE_ERROR_FOR_GOOD_BUFFER))
        fake_tell_error(camera, frame->number, target->stream, CAMERA3_MSG_ERROR_BUFFER);
}

/* An early return: ok, with a release fence that is signalled when the frame is finished. */
static void tell_early(struct fake_camera *camera, struct fake_frame *frame, struct fake_target *target)
{
    camera3_stream_buffer_t buffer;

    target->release = eventfd(0, EFD_CLOEXEC | EFD_NONBLOCK);
    if (target->release < 0)
        return;
    buffer = returned_of(camera, frame, target, false);
    buffer.release_fence = dup(target->release);
    tell_result(camera, frame->number, 0, NULL, 1, &buffer);
}

static void signal_release(struct fake_target *target)
{
    uint64_t one = 1;

    if (target->release < 0)
        return;
    (void)!write(target->release, &one, sizeof(one));
    close(target->release);
    target->release = -1;
}

/* ---- what is kept back */

/* The rule that is to be broken is one of order, and nothing else is kept back. */
static bool keeps_back(const struct fake_camera *camera, const struct fake_frame *frame, enum fake_rule rule)
{
    return fake_breaks_with(camera, frame, rule) && camera->late.frame == NULL;
}

struct fake_frame *fake_tell_late(struct fake_camera *camera)
{
    struct fake_late late = camera->late;

    if (late.frame == NULL)
        return NULL;
    camera->late = (struct fake_late){ NULL, NULL };
    if (late.target != NULL)
        tell_buffer(camera, late.frame, late.target, 0, NULL);
    else
        tell_part(camera, late.frame, camera->partials);
    return late.frame;
}

/* The first target is kept back: an ok buffer, or a failed one whose error was told. */
static bool keep_target(struct fake_camera *camera, struct fake_frame *frame)
{
    struct fake_target *target = &frame->targets[0];

    if (frame->count == 0 || target->back)
        return false;
    if (!(keeps_back(camera, frame, FAKE_BUFFER_ORDER) && !target->failed)
        && !keeps_back(camera, frame, FAKE_FAILED_BUFFER_ORDER))
        return false;
    camera->late = (struct fake_late){ frame, target };
    return true;
}

/* ---- a frame */

/* The rule is broken with a buffer that fails. */
static bool needs_failed_buffer(const struct fake_camera *camera)
{
    switch (camera->options.broken) {
    case FAKE_RELEASE_FENCE:
    case FAKE_FAILED_WITHOUT_NOTICE:
    case FAKE_FAILED_BUFFER_ORDER:
    case FAKE_GOOD_AFTER_ERROR:
    case FAKE_ERROR_TWICE:
    case FAKE_ERROR_UNKNOWN_STREAM: return true;
    default: return false;
    }
}

/* The rule is broken with a frame that fails whole. */
static bool needs_failed_frame(const struct fake_camera *camera)
{
    switch (camera->options.broken) {
    case FAKE_SHUTTER_AFTER_REQUEST_ERROR:
    case FAKE_METADATA_AFTER_REQUEST_ERROR:
    case FAKE_ERROR_BESIDE_REQUEST_ERROR: return true;
    default: return false;
    }
}

void fake_expose(struct fake_camera *camera, struct fake_frame *frame)
{
    if (frame->victim && needs_failed_frame(camera))
        frame->fate = FAKE_NO_REQUEST;
    if (frame->fate == FAKE_NO_REQUEST)
        return;
    if (frame->count != 0 && (frame->fate == FAKE_NO_BUFFER || (frame->victim && needs_failed_buffer(camera))))
        frame->targets[0].failed = true;
    if (!fake_breaks_with(camera, frame, FAKE_NO_SHUTTER))
        fake_tell_shutter(camera, frame->number);
    if (fake_breaks_with(camera, frame, FAKE_SHUTTER_TWICE))
        fake_tell_shutter(camera, frame->number);
    if (fake_breaks_with(camera, frame, FAKE_UNKNOWN_FRAME))
        fake_tell_shutter(camera, frame->number + FAR_FRAME);
    if (fake_breaks_with(camera, frame, FAKE_PARTIAL_NUMBER))
        tell_part(camera, frame, camera->partials + 1);
    if (fake_breaks_with(camera, frame, FAKE_REQUEST_ERROR_LATE) || camera->partials > 1)
        tell_part(camera, frame, 1);
    for (uint32_t i = 0; i < frame->count && camera->options.early; i++)
        tell_early(camera, frame, &frame->targets[i]);
}

/* Errors of the frame's parts, and its metadata but for the last. */
static void tell_first_parts(struct fake_camera *camera, struct fake_frame *frame)
{
    for (uint32_t partial = 2; partial < camera->partials; partial++)
        tell_part(camera, frame, partial);
    if (frame->fate == FAKE_NO_RESULT)
        fake_tell_error(camera, frame->number, NULL, CAMERA3_MSG_ERROR_RESULT);
    for (uint32_t i = 0; i < frame->count; i++)
        if (frame->targets[i].failed)
            tell_buffer_error(camera, frame, &frame->targets[i]);
    if (fake_breaks_with(camera, frame, FAKE_EMPTY_RESULT))
        tell_result(camera, frame->number, 0, NULL, 0, NULL);
}

/* The buffers that aren't back, the first one with the pack where `together`. */
static void tell_buffers(struct fake_camera *camera, struct fake_frame *frame, const camera_metadata_t *pack,
                         bool *together)
{
    for (uint32_t i = 0; i < frame->count; i++) {
        struct fake_target *target = &frame->targets[i];

        if (target->back || camera->late.target == target)
            continue;
        tell_buffer(camera, frame, target, *together ? camera->partials : 0, *together ? pack : NULL);
        *together = false;
    }
}

bool fake_overtakes(const struct fake_frame *frame, const struct fake_late *late)
{
    if (frame->fate == FAKE_NO_REQUEST)
        return false;
    if (late->target == NULL)
        return frame->fate != FAKE_NO_RESULT;
    for (uint32_t i = 0; i < frame->count; i++)
        if (frame->targets[i].stream == late->target->stream && !frame->targets[i].failed)
            return true;
    return false;
}

static void tell_last_part(struct fake_camera *camera, struct fake_frame *frame)
{
    if (frame->fate == FAKE_NO_RESULT)
        tell_result(camera, frame->number, camera->partials, camera->nothing, 0, NULL);
    else
        tell_part(camera, frame, camera->partials);
}

bool fake_finish(struct fake_camera *camera, struct fake_frame *frame)
{
    bool together = !frame->victim && frame->fate != FAKE_NO_RESULT, told;

    if (frame->fate == FAKE_NO_REQUEST || fake_breaks_with(camera, frame, FAKE_REQUEST_ERROR_LATE))
        return fake_fail(camera, frame);
    tell_first_parts(camera, frame);
    told = !keep_target(camera, frame);
    if (fake_breaks_with(camera, frame, FAKE_PARTIAL_TWICE))
        tell_part(camera, frame, 1);
    tell_buffers(camera, frame, camera->part, &together);
    for (uint32_t i = 0; i < frame->count; i++)
        signal_release(&frame->targets[i]);
    if (told && keeps_back(camera, frame, FAKE_METADATA_ORDER) && frame->fate != FAKE_NO_RESULT) {
        camera->late = (struct fake_late){ frame, NULL };
        return false;
    }
    if (together || frame->victim || frame->fate == FAKE_NO_RESULT)
        tell_last_part(camera, frame);
    return told;
}

bool fake_fail(struct fake_camera *camera, struct fake_frame *frame)
{
    camera3_stream_buffer_t buffers[FAKE_MOST_STREAMS];
    uint32_t count = 0;

    fake_tell_error(camera, frame->number, NULL, CAMERA3_MSG_ERROR_REQUEST);
    if (fake_breaks_with(camera, frame, FAKE_SHUTTER_AFTER_REQUEST_ERROR))
        fake_tell_shutter(camera, frame->number);
    if (fake_breaks_with(camera, frame, FAKE_METADATA_AFTER_REQUEST_ERROR))
        tell_part(camera, frame, 1);
    if (fake_breaks_with(camera, frame, FAKE_ERROR_BESIDE_REQUEST_ERROR))
        fake_tell_error(camera, frame->number, NULL, CAMERA3_MSG_ERROR_RESULT);
    for (uint32_t i = 0; i < frame->count; i++) {
        if (!frame->targets[i].back)
            buffers[count++] = returned_of(camera, frame, &frame->targets[i], true);
        signal_release(&frame->targets[i]);
    }
    if (count != 0)
        tell_result(camera, frame->number, camera->partials, camera->nothing, count, buffers);
    return true;
}

void fake_frame_free(struct fake_frame *frame)
{
    for (uint32_t i = 0; i < frame->count; i++) {
        if (frame->targets[i].acquire >= 0)
            close(frame->targets[i].acquire);
        signal_release(&frame->targets[i]);
    }
    free(frame);
}
