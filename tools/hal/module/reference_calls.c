/* The framework's calls, but for requests: each asks the proved device, and waits where that says so. */
#include "reference_camera.h"

#include <errno.h>
#include <hardware/gralloc.h>
#include <stdio.h>
#include <system/camera_metadata.h>

static int initialize(const struct camera3_device *device, const camera3_callback_ops_t *callbacks)
{
    struct reference_camera *camera = reference_camera_of(device);
    int answer;

    if (callbacks == NULL)
        return -EINVAL;
    pthread_mutex_lock(&camera->lock);
    answer = pauvigre_initialize(&camera->proved);
    if (answer == 0)
        camera->callbacks = callbacks;
    pthread_mutex_unlock(&camera->lock);
    return answer;
}

/* ---- configure_streams. What the device has no word for is a stream without a format, which it refuses */

static struct pauvigre_stream stream_of(const camera3_stream_configuration_t *asked, size_t place)
{
    const camera3_stream_t *stream = asked->streams[place];

    if (stream == NULL || stream->rotation != CAMERA3_STREAM_ROTATION_0
        || asked->operation_mode != CAMERA3_STREAM_CONFIGURATION_NORMAL_MODE)
        return (struct pauvigre_stream){ .format = 0 };
    return (struct pauvigre_stream){
        .format = (uint32_t)stream->format,
        .width = stream->width,
        .height = stream->height,
        .input = stream->stream_type != CAMERA3_STREAM_OUTPUT,
    };
}

static size_t count_of(const camera3_stream_configuration_t *asked)
{
    if (asked == NULL || asked->streams == NULL)
        return 0;
    return asked->num_streams < REFERENCE_ASKED ? asked->num_streams : REFERENCE_ASKED;
}

/* The bytes of a picture: two a pixel, or three for two pixels. */
static size_t length_of(const camera3_stream_t *stream)
{
    size_t pixels = (size_t)stream->width * stream->height;

    return stream->format == HAL_PIXEL_FORMAT_RAW16 ? pixels * 2 : pixels * 3 / 2;
}

static void keep_streams(struct reference_camera *camera, const camera3_stream_configuration_t *asked, size_t count,
                         const struct pauvigre_max_buffers *most)
{
    for (size_t i = 0; i < count; i++) {
        camera3_stream_t *stream = asked->streams[i];

        stream->max_buffers = most->of[i];
        stream->usage |= GRALLOC_USAGE_SW_WRITE_OFTEN;
        camera->streams[i] = (struct reference_stream){ stream, length_of(stream) };
    }
    camera->stream_count = count;
    camera->configurations++;
}

static int configure_streams(const struct camera3_device *device, camera3_stream_configuration_t *asked)
{
    struct reference_camera *camera = reference_camera_of(device);
    struct pauvigre_stream streams[REFERENCE_ASKED] = { { .format = 0 } };
    struct pauvigre_max_buffers most;
    size_t count = count_of(asked);
    int answer;

    for (size_t i = 0; i < count; i++)
        streams[i] = stream_of(asked, i);
    pthread_mutex_lock(&camera->lock);
    answer = pauvigre_configure(&camera->proved, streams, count, &most);
    if (answer == 0)
        keep_streams(camera, asked, count, &most);
    pthread_mutex_unlock(&camera->lock);
    return answer;
}

/* ---- templates */

/* The same type has the same settings, at the same place. */
static const camera_metadata_t *construct_default_request_settings(const struct camera3_device *device, int type)
{
    struct reference_camera *camera = reference_camera_of(device);
    struct pauvigre_settings settings;
    const camera_metadata_t *pack = NULL;

    pthread_mutex_lock(&camera->lock);
    if (pauvigre_default_settings(&camera->proved, (uint32_t)type, &settings) == 0) {
        if (camera->has_template[type])
            pack = (const camera_metadata_t *)camera->templates[type].bytes;
        else
            pack = reference_pack_settings(&camera->templates[type], &settings);
        camera->has_template[type] = pack != NULL;
    }
    pthread_mutex_unlock(&camera->lock);
    return pack;
}

/* ---- flush */

/* Returns when all that the device had is back, and told. A second flush waits for the first. */
static int flush(const struct camera3_device *device)
{
    struct reference_camera *camera = reference_camera_of(device);
    int answer;

    pthread_mutex_lock(&camera->lock);
    while ((answer = pauvigre_begin_flush(&camera->proved)) == -EAGAIN)
        reference_wait(camera, 0);
    if (answer == 0) {
        reference_tell_changed(camera);
        while (camera->telling || (answer = pauvigre_end_flush(&camera->proved)) == -EAGAIN)
            reference_wait(camera, 0);
        reference_tell_changed(camera);
    }
    pthread_mutex_unlock(&camera->lock);
    return answer;
}

/* ---- dump */

static void dump(const struct camera3_device *device, int descriptor)
{
    struct reference_camera *camera = reference_camera_of(device);
    struct pauvigre_row row;

    pthread_mutex_lock(&camera->lock);
    dprintf(descriptor, "%zu streams, %zu faults\n", camera->stream_count, camera->options.fault_count);
    for (uint32_t i = 0; pauvigre_row_at(&camera->proved, i, &row) == 0; i++)
        dprintf(descriptor, "frame %u is open\n", row.frame);
    for (size_t i = 0; i < REFERENCE_BUFFERS; i++)
        if (camera->buffers[i].there)
            dprintf(descriptor, "buffer %u of frame %u and stream %u is here%s\n", camera->buffers[i].number,
                    camera->buffers[i].frame, camera->buffers[i].place,
                    camera->buffers[i].fence >= 0 ? ", its acquire fence wasn't waited for" : "");
    pthread_mutex_unlock(&camera->lock);
}

camera3_device_ops_t reference_ops = {
    .initialize = initialize,
    .configure_streams = configure_streams,
    .construct_default_request_settings = construct_default_request_settings,
    .process_capture_request = reference_process_request,
    .dump = dump,
    .flush = flush,
};
