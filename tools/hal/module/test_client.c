/* A framework for tests of the reference HAL. */
#include "test_client.h"

#include "buffer_file.h"

#include <camera_metadata_hidden.h>
#include <dlfcn.h>
#include <errno.h>
#include <stddef.h>
#include <stdio.h>
#include <stdlib.h>
#include <string.h>
#include <sys/eventfd.h>
#include <system/camera_metadata.h>
#include <time.h>
#include <unistd.h>

#define SENTINEL 0xA5 /* what a buffer's last byte is before; no picture ends with it */
#define PATIENCE 2    /* seconds */

static int failed;

void client_check(bool is_so, const char *what)
{
    if (is_so)
        return;
    failed++;
    printf("not so: %s\n", what);
}

int client_status(void)
{
    return failed == 0 ? 0 : 1;
}

/* ---- callbacks */

static struct client *client_of(const struct camera3_callback_ops *callbacks)
{
    return (struct client *)((char *)callbacks - offsetof(struct client, callbacks));
}

static size_t length_of(const camera3_stream_t *stream)
{
    size_t pixels = (size_t)stream->width * stream->height;

    return stream->format == HAL_PIXEL_FORMAT_RAW16 ? pixels * 2 : pixels * 3 / 2;
}

static bool is_written(buffer_handle_t handle, size_t length)
{
    uint8_t *bytes = buffer_file_map(handle, length);
    bool written = bytes != NULL && bytes[length - 1] != SENTINEL;

    buffer_file_unmap(bytes, length);
    return written;
}

static void note_buffer(struct client *client, struct client_frame *frame, const camera3_stream_buffer_t *buffer)
{
    struct client_back *back = &frame->back[buffer->stream - client->streams];

    back->count++;
    back->status = buffer->status;
    back->release_fence = buffer->release_fence;
    back->written = is_written(*buffer->buffer, length_of(buffer->stream));
}

static void note_metadata(struct client_frame *frame, const camera_metadata_t *pack)
{
    camera_metadata_ro_entry_t entry;

    if (find_camera_metadata_ro_entry(pack, ANDROID_SENSOR_TIMESTAMP, &entry) == 0)
        frame->timestamp = entry.data.i64[0];
    if (find_camera_metadata_ro_entry(pack, ANDROID_SENSOR_EXPOSURE_TIME, &entry) == 0)
        frame->exposure = entry.data.i64[0];
    if (find_camera_metadata_ro_entry(pack, ANDROID_SENSOR_SENSITIVITY, &entry) == 0)
        frame->iso = entry.data.i32[0];
    if (find_camera_metadata_ro_entry(pack, 0x80000000, &entry) == 0)
        frame->pattern = entry.data.u8[0];
    if (find_camera_metadata_ro_entry(pack, 0x80000001, &entry) == 0)
        frame->level = entry.data.i32[0];
}

static void on_result(const struct camera3_callback_ops *callbacks, const camera3_capture_result_t *result)
{
    struct client *client = client_of(callbacks);
    struct client_frame *frame = &client->frames[result->frame_number];

    pthread_mutex_lock(&client->lock);
    if (result->result != NULL) {
        frame->parts++;
        note_metadata(frame, result->result);
    }
    for (uint32_t i = 0; i < result->num_output_buffers; i++)
        note_buffer(client, frame, &result->output_buffers[i]);
    pthread_cond_broadcast(&client->changed);
    pthread_mutex_unlock(&client->lock);
}

static void on_notify(const struct camera3_callback_ops *callbacks, const camera3_notify_msg_t *message)
{
    struct client *client = client_of(callbacks);

    pthread_mutex_lock(&client->lock);
    if (message->type == CAMERA3_MSG_SHUTTER)
        client->frames[message->message.shutter.frame_number].shutter = message->message.shutter.timestamp;
    else if (message->message.error.error_code == CAMERA3_MSG_ERROR_DEVICE)
        client->dead = true;
    else
        client->frames[message->message.error.frame_number].errors[message->message.error.error_code]++;
    pthread_cond_broadcast(&client->changed);
    pthread_mutex_unlock(&client->lock);
}

/* ---- the module */

void client_load(struct client *client, const char *path)
{
    memset(client, 0, sizeof(*client));
    pthread_mutex_init(&client->lock, NULL);
    pthread_cond_init(&client->changed, NULL);
    client->callbacks.process_capture_result = on_result;
    client->callbacks.notify = on_notify;
    client->library = dlopen(path, RTLD_NOW | RTLD_LOCAL);
    client->module = client->library == NULL ? NULL : dlsym(client->library, HAL_MODULE_INFO_SYM_AS_STR);
    if (client->module == NULL) {
        printf("%s: %s\n", path, dlerror());
        exit(2);
    }
    client->module->get_vendor_tag_ops(&client->tags);
    set_camera_metadata_vendor_ops(&client->tags);
}

void client_unload(struct client *client)
{
    set_camera_metadata_vendor_ops(NULL);
    dlclose(client->library);
}

int client_open(struct client *client)
{
    hw_device_t *device = NULL;
    int answer = client->module->common.methods->open(&client->module->common, "0", &device);

    client->device = (camera3_device_t *)device;
    client->dead = false;
    memset(client->frames, 0, sizeof(client->frames));
    return answer;
}

void client_start(struct client *client)
{
    static const struct {
        int format;
        uint32_t width, height;
    } wanted[CLIENT_STREAMS] = { { HAL_PIXEL_FORMAT_YCbCr_420_888, 160, 120 },
                                 { HAL_PIXEL_FORMAT_YCbCr_420_888, 80, 60 },
                                 { HAL_PIXEL_FORMAT_YCbCr_420_888, 40, 30 },
                                 { HAL_PIXEL_FORMAT_RAW16, 160, 120 } };
    camera3_stream_t *streams[CLIENT_STREAMS];
    camera3_stream_configuration_t asked = { .num_streams = CLIENT_STREAMS, .streams = streams };

    for (size_t i = 0; i < CLIENT_STREAMS; i++) {
        client->streams[i] = (camera3_stream_t){ .stream_type = CAMERA3_STREAM_OUTPUT,
                                                 .format = wanted[i].format,
                                                 .width = wanted[i].width,
                                                 .height = wanted[i].height };
        streams[i] = &client->streams[i];
    }
    client_check(client_open(client) == 0, "the camera opens");
    client_check(client->device->ops->initialize(client->device, &client->callbacks) == 0, "it initializes");
    client_check(client->device->ops->configure_streams(client->device, &asked) == 0, "it takes four streams");
}

void client_close(struct client *client)
{
    client_check(client->device->common.close(&client->device->common) == 0, "the camera closes");
    for (size_t frame = 0; frame < CLIENT_FRAMES; frame++)
        for (size_t i = 0; i < CLIENT_STREAMS; i++) {
            buffer_file_free(client->buffers[frame][i]);
            client->buffers[frame][i] = NULL;
        }
}

/* ---- requests */

static buffer_handle_t new_buffer(const camera3_stream_t *stream)
{
    size_t length = length_of(stream);
    buffer_handle_t handle = buffer_file_new(length);
    uint8_t *bytes = buffer_file_map(handle, length);

    if (bytes != NULL)
        bytes[length - 1] = SENTINEL;
    buffer_file_unmap(bytes, length);
    return handle;
}

void client_fill(struct client *client, struct client_request *made, uint32_t frame, uint32_t streams, int fence)
{
    memset(made, 0, sizeof(*made));
    for (uint32_t i = 0; i < streams; i++) {
        if (client->buffers[frame][i] == NULL)
            client->buffers[frame][i] = new_buffer(&client->streams[i]);
        made->targets[i] = (camera3_stream_buffer_t){ .stream = &client->streams[i],
                                                      .buffer = &client->buffers[frame][i],
                                                      .acquire_fence = fence < 0 ? -1 : dup(fence),
                                                      .release_fence = -1 };
    }
    made->request.frame_number = frame;
    made->request.num_output_buffers = streams;
    made->request.output_buffers = made->targets;
}

int client_ask(struct client *client, uint32_t frame, uint32_t streams, int fence)
{
    struct client_request made;
    int answer;

    client_fill(client, &made, frame, streams, fence);
    made.request.settings =
        client->device->ops->construct_default_request_settings(client->device, CAMERA3_TEMPLATE_PREVIEW);
    answer = client->device->ops->process_capture_request(client->device, &made.request);
    for (uint32_t i = 0; answer != 0 && i < streams; i++)
        if (made.targets[i].acquire_fence >= 0)
            close(made.targets[i].acquire_fence);
    return answer;
}

bool client_wait(struct client *client, uint32_t frame, uint32_t stream)
{
    struct timespec end;
    bool back;

    clock_gettime(CLOCK_REALTIME, &end);
    end.tv_sec += PATIENCE;
    pthread_mutex_lock(&client->lock);
    while (client->frames[frame].back[stream].count == 0)
        if (pthread_cond_timedwait(&client->changed, &client->lock, &end) == ETIMEDOUT)
            break;
    back = client->frames[frame].back[stream].count != 0;
    pthread_mutex_unlock(&client->lock);
    return back;
}

bool client_has(struct client *client, uint32_t frame, uint32_t stream)
{
    bool back;

    pthread_mutex_lock(&client->lock);
    back = client->frames[frame].back[stream].count != 0;
    pthread_mutex_unlock(&client->lock);
    return back;
}

int client_fence(void)
{
    return eventfd(0, EFD_CLOEXEC | EFD_NONBLOCK);
}

void client_signal(int fence)
{
    uint64_t one = 1;

    (void)!write(fence, &one, sizeof(one));
}
