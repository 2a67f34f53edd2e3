/*
 * Camera HALs of unusual kinds, for tests of the kit: written from camera3.h alone, without a line of fake_hal. STRANGER
 * in the environment names the kind. Correct ones, which mustn't be accused:
 *
 *   at-once    answers each request within its call: one part of metadata, one buffer at once
 *   batches    collects requests, and tells of all that it has together: all shutters, then sixteen parts of metadata and
 *              the buffers, the last stream first
 *   early      gives each buffer back before its shutter, with a release fence that is signalled already
 *
 * and broken ones, which mustn't pass:
 *
 *   twice      at-once, but the first buffer of each frame comes twice
 *   mute       at-once, but without shutters
 *   swapped    batches, but the last metadata of the frames come in the reversed order
 *   keeps      at-once, but each fourth frame never comes back
 *   shy        refuses each request behind the fifth
 *   deaf       at-once, but every buffer comes back in error, and nothing else does
 */
#include <errno.h>
#include <hardware/camera3.h>
#include <hardware/camera_common.h>
#include <poll.h>
#include <pthread.h>
#include <stdbool.h>
#include <stdlib.h>
#include <string.h>
#include <sys/eventfd.h>
#include <system/camera_metadata.h>
#include <time.h>
#include <unistd.h>

#define MOST 16
#define FENCE_MS 100

enum kind { AT_ONCE, BATCHES, EARLY, TWICE, MUTE, SWAPPED, KEEPS, SHY, DEAF, KINDS };

struct frame {
    uint32_t number, count;
    camera3_stream_buffer_t buffers[MOST];
};

static struct {
    camera3_device_t device;
    enum kind kind;
    const camera3_callback_ops_t *framework;
    pthread_mutex_t lock;
    pthread_cond_t changed;
    pthread_t worker;
    struct frame frames[MOST];
    int count;
    unsigned int accepted;
    bool initialized, working, stopping, telling, has_settings, has_number;
    uint32_t number;
    camera3_stream_t *streams[MOST];
    uint32_t stream_count;
    camera_metadata_t *pack, *characteristics;
} self = { .lock = PTHREAD_MUTEX_INITIALIZER, .changed = PTHREAD_COND_INITIALIZER };

static bool is_batching(void)
{
    return self.kind == BATCHES || self.kind == EARLY || self.kind == SWAPPED;
}

static uint32_t parts(void)
{
    return self.kind == BATCHES || self.kind == SWAPPED ? 16 : 1;
}

/* ---- callbacks */

static void tell_shutter(uint32_t number)
{
    camera3_notify_msg_t message = { .type = CAMERA3_MSG_SHUTTER };
    struct timespec now;

    clock_gettime(CLOCK_MONOTONIC, &now);
    message.message.shutter.frame_number = number;
    message.message.shutter.timestamp = (uint64_t)now.tv_sec * 1000000000u + (uint64_t)now.tv_nsec;
    if (self.kind != MUTE)
        self.framework->notify(self.framework, &message);
}

static void tell_buffer_error(uint32_t number, camera3_stream_t *stream)
{
    camera3_notify_msg_t message = { .type = CAMERA3_MSG_ERROR };

    message.message.error = (camera3_error_msg_t){ number, stream, CAMERA3_MSG_ERROR_BUFFER };
    self.framework->notify(self.framework, &message);
}

static void tell_result(uint32_t number, uint32_t part, uint32_t count, const camera3_stream_buffer_t *buffers)
{
    camera3_capture_result_t result = { .frame_number = number,
                                        .result = part == 0 ? NULL : self.pack,
                                        .num_output_buffers = count,
                                        .output_buffers = buffers,
                                        .partial_result = part };

    self.framework->process_capture_result(self.framework, &result);
}

/* Waits for the acquire fence; a buffer whose fence isn't signalled in time fails, and goes back with it. */
static void fill(uint32_t number, camera3_stream_buffer_t *buffer)
{
    struct pollfd fence = { buffer->acquire_fence, POLLIN, 0 };
    bool late = fence.fd >= 0 && poll(&fence, 1, FENCE_MS) != 1;

    buffer->status = late || self.kind == DEAF ? CAMERA3_BUFFER_STATUS_ERROR : CAMERA3_BUFFER_STATUS_OK;
    buffer->release_fence = late ? fence.fd : -1;
    if (!late && fence.fd >= 0)
        close(fence.fd);
    buffer->acquire_fence = -1;
    if (late)
        tell_buffer_error(number, buffer->stream);
    else if (self.kind == EARLY)
        buffer->release_fence = eventfd(1, EFD_CLOEXEC);
}

static void tell_frame(struct frame *frame)
{
    if (self.kind == KEEPS && self.accepted % 4 == 0)
        return;
    if (self.kind != DEAF)
        tell_shutter(frame->number);
    for (uint32_t i = 0; i < frame->count; i++)
        fill(frame->number, &frame->buffers[i]);
    tell_result(frame->number, self.kind == DEAF ? 0 : 1, frame->count, frame->buffers);
    if (self.kind == TWICE)
        tell_result(frame->number, 0, 1, frame->buffers);
}

static void tell_buffers(struct frame *frame)
{
    for (uint32_t i = frame->count; i > 0; i--) {
        fill(frame->number, &frame->buffers[i - 1]);
        tell_result(frame->number, 0, 1, &frame->buffers[i - 1]);
    }
}

static void tell_batch(struct frame *frames, int count)
{
    for (int i = 0; i < count && self.kind == EARLY; i++)
        tell_buffers(&frames[i]);
    for (int i = 0; i < count; i++)
        tell_shutter(frames[i].number);
    for (int i = 0; i < count; i++) {
        struct frame *frame = &frames[self.kind == SWAPPED ? count - 1 - i : i];

        for (uint32_t part = 1; part <= parts(); part++)
            tell_result(frame->number, part, 0, NULL);
    }
    for (int i = 0; i < count && self.kind != EARLY; i++)
        tell_buffers(&frames[i]);
}

static void *work(void *argument)
{
    struct timespec pause = { 0, 5000000 };

    pthread_mutex_lock(&self.lock);
    while (!self.stopping || self.count != 0) {
        struct frame frames[MOST];
        int count;

        if (self.count == 0) {
            pthread_cond_wait(&self.changed, &self.lock);
            continue;
        }
        pthread_mutex_unlock(&self.lock);
        nanosleep(&pause, NULL);
        pthread_mutex_lock(&self.lock);
        count = self.count;
        memcpy(frames, self.frames, sizeof(frames));
        self.count = 0;
        self.telling = true;
        pthread_mutex_unlock(&self.lock);
        tell_batch(frames, count);
        pthread_mutex_lock(&self.lock);
        self.telling = false;
        pthread_cond_broadcast(&self.changed);
    }
    pthread_mutex_unlock(&self.lock);
    return argument;
}

/* Waits until nothing is to be told. With the lock taken. */
static void wait_until_told(void)
{
    pthread_cond_broadcast(&self.changed);
    while (self.count != 0 || self.telling)
        pthread_cond_wait(&self.changed, &self.lock);
}

/* ---- calls */

static int initialize(const struct camera3_device *device, const camera3_callback_ops_t *callbacks)
{
    (void)device;
    if (self.initialized)
        return -ENOSYS;
    self.initialized = true;
    self.framework = callbacks;
    if (is_batching())
        self.working = pthread_create(&self.worker, NULL, work, NULL) == 0;
    return 0;
}

static int configure_streams(const struct camera3_device *device, camera3_stream_configuration_t *asked)
{
    uint32_t outputs = 0, inputs = 0;

    (void)device;
    if (!self.initialized)
        return -ENOSYS;
    if (asked == NULL || asked->num_streams > MOST)
        return -EINVAL;
    for (uint32_t i = 0; i < asked->num_streams; i++) {
        outputs += asked->streams[i]->stream_type != CAMERA3_STREAM_INPUT;
        inputs += asked->streams[i]->stream_type != CAMERA3_STREAM_OUTPUT;
        if (asked->streams[i]->format < HAL_PIXEL_FORMAT_RAW16 || asked->streams[i]->width == 0)
            return -EINVAL;
    }
    if (outputs == 0 || inputs > 1)
        return -EINVAL;
    pthread_mutex_lock(&self.lock);
    wait_until_told();
    self.stream_count = asked->num_streams;
    for (uint32_t i = 0; i < asked->num_streams; i++) {
        self.streams[i] = asked->streams[i];
        asked->streams[i]->max_buffers = is_batching() ? 8 : 1;
    }
    self.has_settings = false;
    pthread_mutex_unlock(&self.lock);
    return 0;
}

static const camera_metadata_t *construct_default_request_settings(const struct camera3_device *device, int template_id)
{
    (void)device;
    return self.initialized && template_id >= 1 && template_id <= 6 ? self.pack : NULL;
}

static bool is_good(const camera3_capture_request_t *request)
{
    if (request == NULL || request->num_output_buffers == 0 || request->num_output_buffers > MOST
        || (request->settings == NULL && !self.has_settings) || (self.has_number && request->frame_number <= self.number))
        return false;
    for (uint32_t i = 0; i < request->num_output_buffers; i++) {
        const camera3_stream_buffer_t *target = &request->output_buffers[i];
        bool known = false;

        for (uint32_t k = 0; k < self.stream_count; k++)
            known = known || self.streams[k] == target->stream;
        if (!known || target->buffer == NULL || *target->buffer == NULL)
            return false;
    }
    return !(self.kind == SHY && self.accepted >= 5);
}

static int process_capture_request(const struct camera3_device *device, camera3_capture_request_t *request)
{
    struct frame frame = { 0 };

    (void)device;
    if (!self.initialized)
        return -ENOSYS;
    pthread_mutex_lock(&self.lock);
    if (!is_good(request)) {
        pthread_mutex_unlock(&self.lock);
        return -EINVAL;
    }
    frame.number = request->frame_number;
    frame.count = request->num_output_buffers;
    memcpy(frame.buffers, request->output_buffers, frame.count * sizeof(frame.buffers[0]));
    self.has_settings = self.has_number = true;
    self.number = frame.number;
    self.accepted++;
    while (is_batching() && self.count == MOST)
        pthread_cond_wait(&self.changed, &self.lock);
    if (is_batching())
        self.frames[self.count++] = frame;
    pthread_cond_broadcast(&self.changed);
    pthread_mutex_unlock(&self.lock);
    if (!is_batching())
        tell_frame(&frame);
    return 0;
}

static int flush(const struct camera3_device *device)
{
    (void)device;
    if (!self.initialized)
        return -ENOSYS;
    pthread_mutex_lock(&self.lock);
    wait_until_told();
    pthread_mutex_unlock(&self.lock);
    return 0;
}

static void dump(const struct camera3_device *device, int descriptor)
{
    (void)device, (void)descriptor;
}

static int close_camera(struct hw_device_t *device)
{
    (void)device;
    pthread_mutex_lock(&self.lock);
    self.stopping = true;
    pthread_cond_broadcast(&self.changed);
    pthread_mutex_unlock(&self.lock);
    if (self.working)
        pthread_join(self.worker, NULL);
    self.working = self.initialized = false;
    return 0;
}

static camera3_device_ops_t ops = {
    .initialize = initialize,
    .configure_streams = configure_streams,
    .construct_default_request_settings = construct_default_request_settings,
    .process_capture_request = process_capture_request,
    .dump = dump,
    .flush = flush,
};

/* ---- the module */

static int get_number_of_cameras(void)
{
    return 1;
}

static int get_camera_info(int id, struct camera_info *info)
{
    static const char *const names[KINDS] = { "at-once", "batches", "early", "twice", "mute",
                                              "swapped", "keeps",   "shy",   "deaf" };
    const char *name = getenv("STRANGER");
    uint8_t mode = ANDROID_CONTROL_MODE_AUTO;
    int32_t count;

    if (id != 0 || name == NULL)
        return -EINVAL;
    self.kind = AT_ONCE;
    while (self.kind < KINDS && strcmp(name, names[self.kind]) != 0)
        self.kind++;
    if (self.kind == KINDS)
        return -EINVAL;
    if (self.characteristics == NULL) {
        self.characteristics = allocate_camera_metadata(4, 64);
        self.pack = allocate_camera_metadata(4, 64);
        count = (int32_t)parts();
        add_camera_metadata_entry(self.characteristics, ANDROID_REQUEST_PARTIAL_RESULT_COUNT, &count, 1);
        add_camera_metadata_entry(self.pack, ANDROID_CONTROL_MODE, &mode, 1);
    }
    memset(info, 0, sizeof(*info));
    info->device_version = CAMERA_DEVICE_API_VERSION_3_2;
    info->static_camera_characteristics = self.characteristics;
    return 0;
}

static int open_camera(const hw_module_t *module, const char *id, hw_device_t **device)
{
    if (strcmp(id, "0") != 0)
        return -EINVAL;
    self.device.common.tag = HARDWARE_DEVICE_TAG;
    self.device.common.version = CAMERA_DEVICE_API_VERSION_3_2;
    self.device.common.module = (hw_module_t *)module;
    self.device.common.close = close_camera;
    self.device.ops = &ops;
    self.stopping = self.has_settings = self.has_number = false;
    self.stream_count = 0;
    *device = &self.device.common;
    return 0;
}

static __attribute__((destructor)) void unload(void)
{
    if (self.characteristics != NULL) {
        free_camera_metadata(self.characteristics);
        free_camera_metadata(self.pack);
    }
}

static hw_module_methods_t methods = { .open = open_camera };

__attribute__((visibility("default"))) camera_module_t HAL_MODULE_INFO_SYM = {
    .common = {
        .tag = HARDWARE_MODULE_TAG,
        .module_api_version = CAMERA_MODULE_API_VERSION_2_3,
        .hal_api_version = HARDWARE_HAL_API_VERSION,
        .id = CAMERA_HARDWARE_MODULE_ID,
        .name = "a stranger",
        .author = "",
        .methods = &methods,
    },
    .get_number_of_cameras = get_number_of_cameras,
    .get_camera_info = get_camera_info,
};
