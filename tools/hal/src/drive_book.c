/* The book of the requests that the camera has, and the callbacks, which strike them out. */
#include "drive.h"

#include <stddef.h>
#include <stdlib.h>
#include <system/camera_metadata.h>
#include <unistd.h>

static struct drive *drive_of(const struct camera3_callback_ops *callbacks)
{
    return (struct drive *)((char *)callbacks - offsetof(struct drive, callbacks));
}

static bool is_all_back(const struct drive_request *request)
{
    for (int i = 0; i < request->count; i++)
        if (!request->back[i])
            return false;
    return true;
}

static bool is_over(const struct drive_request *request)
{
    return request->accepted && request->metadata_ended && is_all_back(request);
}

/* ---- the book; with the lock taken. A buffer is held by the request for which it was taken (drive_requests.c) */

bool drive_is_busy(const struct drive *drive)
{
    return drive->requests != NULL;
}

struct drive_request *drive_book(struct drive *drive, const camera3_capture_request_t *request,
                                 struct drive_buffer **buffers)
{
    struct drive_request *made = calloc(1, sizeof(*made));

    if (made == NULL)
        return NULL;
    made->frame = request->frame_number;
    made->count = (int)request->num_output_buffers;
    for (int i = 0; i < made->count; i++)
        made->buffers[i] = buffers[i];
    made->next = drive->requests;
    drive->requests = made;
    return made;
}

static struct drive_request *request_of(struct drive *drive, uint32_t frame)
{
    struct drive_request *request = drive->requests;

    while (request != NULL && request->frame != frame)
        request = request->next;
    return request;
}

static void strike(struct drive *drive, struct drive_request *request)
{
    struct drive_request **place = &drive->requests;

    while (*place != request)
        place = &(*place)->next;
    *place = request->next;
    free(request);
}

static void give_back(struct drive_buffer *buffer, uint32_t frame)
{
    if (!buffer->held || buffer->frame != frame)
        return;
    buffer->held = false;
    drive_fence_drop(buffer);
}

void drive_book_refused(struct drive *drive, struct drive_request *request)
{
    for (int i = 0; i < request->count; i++)
        give_back(request->buffers[i], request->frame);
    strike(drive, request);
}

/* Those in call are struck out where they return. */
void drive_forget_requests(struct drive *drive)
{
    struct drive_request *request = drive->requests;

    while (request != NULL) {
        struct drive_request *next = request->next;

        if (request->accepted)
            drive_book_refused(drive, request);
        request = next;
    }
}

void drive_book_accepted(struct drive *drive, struct drive_request *request)
{
    request->accepted = true;
    if (is_over(request))
        strike(drive, request);
}

/* ---- callbacks */

/* Its picture is in it. */
static bool is_filled(const camera3_stream_buffer_t *returned)
{
    return returned->status == CAMERA3_BUFFER_STATUS_OK && returned->release_fence < 0;
}

/* A buffer with a release fence isn't used before that is signalled; of a failed one it tells nothing. */
static void keep_release(struct drive_buffer *buffer, const camera3_stream_buffer_t *returned)
{
    if (returned->release_fence < 0)
        return;
    if (buffer == NULL || returned->status != CAMERA3_BUFFER_STATUS_OK || buffer->release >= 0)
        close(returned->release_fence);
    else
        buffer->release = returned->release_fence;
}

static void take_back(const struct drive *drive, struct drive_request *request, const camera3_stream_buffer_t *returned)
{
    struct drive_buffer *buffer = NULL;

    for (int i = 0; request != NULL && i < request->count; i++) {
        if (&request->buffers[i]->handle != returned->buffer || request->back[i])
            continue;
        request->back[i] = true;
        buffer = request->buffers[i];
        if (is_filled(returned))
            drive_write_picture(drive, buffer, request->frame);
        give_back(buffer, request->frame);
    }
    keep_release(buffer, returned);
}

static bool ends_metadata(const struct drive *drive, const camera3_capture_result_t *result)
{
    uint32_t partial = result->partial_result;

    return result->result != NULL && get_camera_metadata_entry_count(result->result) != 0
           && (partial == 0 || partial >= (uint32_t)drive->partials);
}

static void on_result(const struct camera3_callback_ops *callbacks, const camera3_capture_result_t *result)
{
    struct drive *drive = drive_of(callbacks);
    struct drive_request *request;

    pthread_mutex_lock(&drive->lock);
    request = request_of(drive, result->frame_number);
    for (uint32_t i = 0; i < result->num_output_buffers; i++)
        take_back(drive, request, &result->output_buffers[i]);
    if (request != NULL && ends_metadata(drive, result))
        request->metadata_ended = true;
    if (request != NULL && is_over(request))
        strike(drive, request);
    pthread_cond_broadcast(&drive->changed);
    pthread_mutex_unlock(&drive->lock);
}

static void on_error(struct drive *drive, const camera3_error_msg_t *error)
{
    struct drive_request *request = request_of(drive, error->frame_number);

    if (error->error_code == CAMERA3_MSG_ERROR_DEVICE) {
        drive->dead = true;
        return;
    }
    if (request == NULL)
        return;
    if (error->error_code == CAMERA3_MSG_ERROR_REQUEST || error->error_code == CAMERA3_MSG_ERROR_RESULT)
        request->metadata_ended = true;
    if (is_over(request))
        strike(drive, request);
}

static void on_notify(const struct camera3_callback_ops *callbacks, const camera3_notify_msg_t *message)
{
    struct drive *drive = drive_of(callbacks);

    pthread_mutex_lock(&drive->lock);
    if (message->type == CAMERA3_MSG_ERROR)
        on_error(drive, &message->message.error);
    pthread_cond_broadcast(&drive->changed);
    pthread_mutex_unlock(&drive->lock);
}

void drive_fill_callbacks(struct drive *drive)
{
    drive->callbacks.process_capture_result = on_result;
    drive->callbacks.notify = on_notify;
}
