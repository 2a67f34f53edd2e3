/* process_capture_request: the request in the device's words, its waiting, and what is kept of it. */
#include "reference_camera.h"

#include "buffer_file.h"

#include <errno.h>

/* A request in the device's words, and the buffers that it brings. */
struct asked {
    uint32_t frame;
    bool has_settings;
    struct pauvigre_settings settings;
    size_t count;
    struct pauvigre_target targets[REFERENCE_ASKED];
    struct reference_buffer buffers[REFERENCE_ASKED];
};

/* ---- targets. What the device has no word for is a stream that isn't configured, which it refuses */

static uint8_t place_of(const struct reference_camera *camera, const camera3_stream_t *stream)
{
    uint8_t place = 0;

    while (place < camera->stream_count && camera->streams[place].stream != stream)
        place++;
    return place < camera->stream_count ? place : PAUVIGRE_STREAMS;
}

/* A target that the device refuses. */
static void take_none(struct asked *asked)
{
    asked->buffers[asked->count] = (struct reference_buffer){ .fence = -1 };
    asked->targets[asked->count] = (struct pauvigre_target){ .stream = PAUVIGRE_STREAMS };
    asked->count++;
}

static void take_target(struct reference_camera *camera, const camera3_stream_buffer_t *target, struct asked *asked)
{
    uint8_t place = place_of(camera, target->stream);
    size_t length = place < PAUVIGRE_STREAMS ? camera->streams[place].length : 0;
    void *memory = target->buffer == NULL ? NULL : buffer_file_map(*target->buffer, length);

    if (memory == NULL) {
        take_none(asked);
        return;
    }
    asked->targets[asked->count] = (struct pauvigre_target){ .stream = place };
    asked->buffers[asked->count] = (struct reference_buffer){
        .frame = asked->frame,
        .place = place,
        .stream = target->stream,
        .handle = target->buffer,
        .memory = memory,
        .length = length,
        .fence = target->acquire_fence,
    };
    asked->count++;
}

/* An input buffer is one of these: no input is offered. */
static void take_targets(struct reference_camera *camera, const camera3_capture_request_t *request, struct asked *asked)
{
    size_t count = request->output_buffers == NULL ? 0 : request->num_output_buffers;

    asked->count = 0;
    if (request->input_buffer != NULL)
        take_none(asked);
    for (size_t i = 0; i < count && asked->count < REFERENCE_ASKED; i++)
        take_target(camera, &request->output_buffers[i], asked);
}

static void let_go(struct asked *asked)
{
    for (size_t i = 0; i < asked->count; i++)
        buffer_file_unmap(asked->buffers[i].memory, asked->buffers[i].length);
}

/* ---- the call; with the lock taken */

/* A buffer has one number, whichever target names it. */
static void number_targets(struct reference_camera *camera, struct asked *asked)
{
    for (size_t i = 0; i < asked->count; i++) {
        size_t same = 0;

        while (same < i && asked->buffers[same].handle != asked->buffers[i].handle)
            same++;
        asked->buffers[i].number =
            same < i ? asked->buffers[same].number : reference_number_of(camera, asked->buffers[i].handle);
        asked->targets[i].buffer = asked->buffers[i].number;
    }
}

static int ask(struct reference_camera *camera, struct asked *asked)
{
    number_targets(camera, asked);
    if (!asked->has_settings)
        return pauvigre_request_as_before(&camera->proved, asked->frame, asked->targets, asked->count);
    return pauvigre_request(&camera->proved, asked->frame, &asked->settings, asked->targets, asked->count);
}

static void keep(struct reference_camera *camera, const struct asked *asked)
{
    for (size_t i = 0; i < asked->count; i++)
        reference_keep(camera, &asked->buffers[i]);
    reference_tell_changed(camera);
}

/* Waits as long as the device says so; where it was configured anew meanwhile, the targets are looked up anew. */
static int ask_until_taken(struct reference_camera *camera, const camera3_capture_request_t *request,
                           struct asked *asked)
{
    int answer;

    do {
        unsigned int configurations = camera->configurations;

        take_targets(camera, request, asked);
        while ((answer = ask(camera, asked)) == -EAGAIN && configurations == camera->configurations)
            reference_wait(camera, 0);
        if (answer != 0)
            let_go(asked);
    } while (answer == -EAGAIN);
    return answer;
}

/* Settings may lack what the device's settings have: that is as in the preview's. */
static void take_settings(struct reference_camera *camera, const camera_metadata_t *pack, struct asked *asked)
{
    asked->has_settings = pack != NULL;
    if (pack == NULL)
        return;
    pauvigre_default_settings(&camera->proved, CAMERA3_TEMPLATE_PREVIEW, &asked->settings);
    reference_read_settings(pack, &asked->settings);
}

int reference_process_request(const struct camera3_device *device, camera3_capture_request_t *request)
{
    static const camera3_capture_request_t nothing = { .num_output_buffers = 0 };
    struct reference_camera *camera = reference_camera_of(device);
    const camera3_capture_request_t *wanted = request == NULL ? &nothing : request;
    struct asked asked = { .frame = wanted->frame_number };
    int answer;

    pthread_mutex_lock(&camera->lock);
    take_settings(camera, wanted->settings, &asked);
    answer = ask_until_taken(camera, wanted, &asked);
    if (answer == 0)
        keep(camera, &asked);
    pthread_mutex_unlock(&camera->lock);
    return answer;
}
