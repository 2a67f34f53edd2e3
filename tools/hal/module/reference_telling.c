/* What is told to the framework: each event is one callback. */
#include "reference_camera.h"

static void notify_shutter(const camera3_callback_ops_t *callbacks, const struct reference_event *event)
{
    camera3_notify_msg_t message = { .type = CAMERA3_MSG_SHUTTER };

    message.message.shutter.frame_number = event->frame;
    message.message.shutter.timestamp = event->time;
    callbacks->notify(callbacks, &message);
}

static void notify_error(const camera3_callback_ops_t *callbacks, const struct reference_event *event)
{
    camera3_notify_msg_t message = { .type = CAMERA3_MSG_ERROR };

    message.message.error.frame_number = event->frame;
    message.message.error.error_stream = event->stream;
    message.message.error.error_code = event->error;
    callbacks->notify(callbacks, &message);
}

static void give_part(struct reference_camera *camera, const struct reference_event *event)
{
    camera3_capture_result_t result = {
        .frame_number = event->frame,
        .result = reference_pack_part(&camera->part, &event->part),
        .partial_result = event->part.number,
    };

    camera->callbacks->process_capture_result(camera->callbacks, &result);
}

static void give_buffer(const camera3_callback_ops_t *callbacks, const struct reference_event *event)
{
    camera3_capture_result_t result = {
        .frame_number = event->frame,
        .num_output_buffers = 1,
        .output_buffers = &event->buffer,
    };

    callbacks->process_capture_result(callbacks, &result);
}

void reference_tell(struct reference_camera *camera, const struct reference_event *event)
{
    switch (event->kind) {
    case REFERENCE_SHUTTER: notify_shutter(camera->callbacks, event); break;
    case REFERENCE_ERROR: notify_error(camera->callbacks, event); break;
    case REFERENCE_PART: give_part(camera, event); break;
    case REFERENCE_BUFFER: give_buffer(camera->callbacks, event); break;
    }
}
