/* The thread that makes the device's steps: the first that is ready, frame by frame, then the next exposure. */
#include "reference_camera.h"

/* ---- single steps, each of which says what is to be told */

static bool send_part(struct reference_camera *camera, const struct pauvigre_row *row, struct reference_event *event)
{
    *event = (struct reference_event){ .kind = REFERENCE_PART, .frame = row->frame };
    return row->may_send_part && pauvigre_send_part(&camera->proved, row->frame, &event->part) == 0;
}

static bool tell_error(struct reference_camera *camera, const struct pauvigre_row *row, struct reference_event *event)
{
    struct pauvigre_error error;

    if (!row->may_tell_error || pauvigre_tell_error(&camera->proved, row->frame, &error) != 0)
        return false;
    *event = (struct reference_event){ .kind = REFERENCE_ERROR, .frame = error.frame, .error = (int)error.kind };
    if (error.kind == PAUVIGRE_ERROR_BUFFER)
        event->stream = camera->streams[error.stream].stream;
    return true;
}

/* Failed buffers of a stream go back in the order of frames too. One whose fence nobody waited for keeps it. */
static bool return_failed(struct reference_camera *camera, const struct pauvigre_row *row, uint8_t place,
                          struct reference_event *event)
{
    struct reference_buffer *buffer = reference_buffer_at(camera, row->frame, place);
    uint32_t number;
    int fence;

    if (!row->targets[place].may_return_failed || buffer == NULL || !reference_is_first(camera, buffer))
        return false;
    fence = reference_take_fence(camera, buffer);
    if (pauvigre_return_failed(&camera->proved, row->frame, place, &number) != 0) {
        buffer->fence = fence;
        return false;
    }
    *event = (struct reference_event){ .kind = REFERENCE_BUFFER, .frame = row->frame };
    event->buffer = reference_give_back(buffer, CAMERA3_BUFFER_STATUS_ERROR, fence);
    return true;
}

static bool deliver(struct reference_camera *camera, const struct pauvigre_row *row, uint8_t place,
                    struct reference_event *event)
{
    struct reference_buffer *buffer = reference_buffer_at(camera, row->frame, place);
    struct pauvigre_delivered delivered;

    if (!row->targets[place].may_deliver || buffer == NULL
        || pauvigre_deliver(&camera->proved, row->frame, place, buffer->memory, buffer->length, &delivered) != 0)
        return false;
    *event = (struct reference_event){ .kind = REFERENCE_BUFFER, .frame = row->frame };
    event->buffer = reference_give_back(buffer, CAMERA3_BUFFER_STATUS_OK, -1);
    return true;
}

/* The next exposure begins when the one before has ended. Times rise also where nothing waits. */
static bool expose(struct reference_camera *camera, struct reference_event *event)
{
    uint64_t now = reference_clock();

    *event = (struct reference_event){ .kind = REFERENCE_SHUTTER, .time = now };
    if (now < camera->next_exposure || pauvigre_expose(&camera->proved, now, &event->frame) != 0)
        return false;
    camera->next_exposure = now + (camera->options.frame_time == 0 ? 1 : camera->options.frame_time);
    reference_note_exposed(camera, event->frame, now + camera->options.frame_time);
    return true;
}

/* ---- which one */

typedef bool buffer_step(struct reference_camera *, const struct pauvigre_row *, uint8_t, struct reference_event *);

/* Makes the step of the first of the frame's buffers that is ready for it. */
static bool step_of_buffer(struct reference_camera *camera, const struct pauvigre_row *row, buffer_step *step,
                           struct reference_event *event)
{
    for (uint8_t place = 0; place < PAUVIGRE_STREAMS; place++)
        if (step(camera, row, place, event))
            return true;
    return false;
}

/* What can still come of the frame is told before what can't. */
static bool step_of_frame(struct reference_camera *camera, const struct pauvigre_row *row,
                          struct reference_event *event)
{
    return send_part(camera, row, event) || step_of_buffer(camera, row, deliver, event)
           || tell_error(camera, row, event) || step_of_buffer(camera, row, return_failed, event);
}

/* Makes the first step that is ready; else says until when its thread may wait, 0 where it waits for no time. */
static bool make_step(struct reference_camera *camera, struct reference_event *event, uint64_t *until)
{
    struct pauvigre_row row;

    *until = 0;
    for (uint32_t i = 0; pauvigre_row_at(&camera->proved, i, &row) == 0; i++) {
        if (step_of_frame(camera, &row, event))
            return true;
        if (row.may_expose)
            *until = camera->next_exposure;
    }
    return expose(camera, event);
}

void *reference_make_steps(void *argument)
{
    struct reference_camera *camera = argument;
    struct reference_event event;
    uint64_t until;

    pthread_mutex_lock(&camera->lock);
    while (!camera->stopping) {
        camera->telling = true;
        if (make_step(camera, &event, &until)) {
            reference_tell_changed(camera);
            pthread_mutex_unlock(&camera->lock);
            reference_tell(camera, &event);
            pthread_mutex_lock(&camera->lock);
            camera->telling = false;
            reference_tell_changed(camera);
        } else {
            camera->telling = false;
            reference_wait(camera, until);
        }
    }
    pthread_mutex_unlock(&camera->lock);
    return NULL;
}
