/* The calls of the small camera HAL: what it accepts and refuses; flush and close, which wait for the worker. */
#include "fake_camera.h"

#include <errno.h>
#include <stdio.h>
#include <stdlib.h>
#include <string.h>
#include <system/camera_metadata.h>
#include <time.h>
#include <unistd.h>

#define IDLE_MS 30

bool fake_breaks(const struct fake_camera *camera, enum fake_rule rule)
{
    return camera->options.broken == rule;
}

bool fake_breaks_with(const struct fake_camera *camera, const struct fake_frame *frame, enum fake_rule rule)
{
    return camera->options.broken == rule && frame->victim;
}

static bool is_lazy(const struct fake_camera *camera, enum fake_lazy form)
{
    return camera->options.lazy == form;
}

static struct fake_camera *camera_of(const struct camera3_device *device)
{
    return (struct fake_camera *)device; /* it is the first member */
}

camera_metadata_t *fake_metadata(bool with_entry)
{
    camera_metadata_t *made = allocate_camera_metadata(4, 64);
    uint8_t mode = ANDROID_CONTROL_MODE_AUTO;

    if (made != NULL && with_entry)
        add_camera_metadata_entry(made, ANDROID_CONTROL_MODE, &mode, 1);
    return made;
}

/* ---- initialize */

static int start(struct fake_camera *camera)
{
    camera->part = fake_metadata(true);
    camera->nothing = fake_metadata(false);
    if (camera->part == NULL || camera->nothing == NULL)
        return -ENODEV;
    if (pthread_create(&camera->worker, NULL, fake_work, camera) != 0)
        return -ENODEV;
    camera->initialized = true;
    return 0;
}

static int initialize(const struct camera3_device *device, const camera3_callback_ops_t *callbacks)
{
    struct fake_camera *camera = camera_of(device);
    int answer = 0;

    pthread_mutex_lock(&camera->lock);
    if (camera->closed || camera->dying || is_lazy(camera, FAKE_LAZY_INIT))
        answer = -ENODEV;
    else if (camera->initialized && !fake_breaks(camera, FAKE_ACCEPTED_INIT_TWICE)) {
        camera->dying = camera->dead = true;
        answer = -ENODEV;
    } else if (!camera->initialized) {
        camera->callbacks = callbacks;
        answer = start(camera);
    }
    pthread_mutex_unlock(&camera->lock);
    return answer;
}

/* 0 where the camera does what it is asked: initialized and neither dead nor closed. With the lock taken. */
static int working(const struct fake_camera *camera)
{
    if (camera->closed || (camera->dying && !fake_breaks(camera, FAKE_ACCEPTED_DEAD)))
        return -ENODEV;
    return camera->initialized || fake_breaks(camera, FAKE_ACCEPTED_BEFORE_INIT) ? 0 : -EINVAL;
}

static const camera_metadata_t *construct_default_request_settings(const struct camera3_device *device, int template_id)
{
    struct fake_camera *camera = camera_of(device);
    const camera_metadata_t *settings = NULL;

    pthread_mutex_lock(&camera->lock);
    if (working(camera) == 0 && template_id > 0 && template_id < FAKE_TEMPLATES
        && !is_lazy(camera, FAKE_LAZY_TEMPLATE)) {
        if (camera->settings[template_id] == NULL)
            camera->settings[template_id] = fake_metadata(true);
        settings = camera->settings[template_id];
    }
    pthread_mutex_unlock(&camera->lock);
    return settings;
}

/* ---- configure */

static bool gives_output(const camera3_stream_t *stream)
{
    return stream->stream_type == CAMERA3_STREAM_OUTPUT || stream->stream_type == CAMERA3_STREAM_BIDIRECTIONAL;
}

static bool takes_input(const camera3_stream_t *stream)
{
    return stream->stream_type == CAMERA3_STREAM_INPUT || stream->stream_type == CAMERA3_STREAM_BIDIRECTIONAL;
}

static bool is_known_format(int format)
{
    return format == HAL_PIXEL_FORMAT_YCbCr_420_888 || format == HAL_PIXEL_FORMAT_IMPLEMENTATION_DEFINED
           || format == HAL_PIXEL_FORMAT_BLOB || format == HAL_PIXEL_FORMAT_RAW16;
}

static bool is_valid(const struct fake_camera *camera, const camera3_stream_configuration_t *asked)
{
    unsigned int outputs = 0, inputs = 0;

    if (is_lazy(camera, FAKE_LAZY_CONFIGURE))
        return false;
    if (asked->num_streams > FAKE_MOST_STREAMS || (asked->num_streams != 0 && asked->streams == NULL))
        return false;
    for (uint32_t i = 0; i < asked->num_streams; i++) {
        const camera3_stream_t *stream = asked->streams[i];

        if (stream == NULL || !is_known_format(stream->format) || stream->width == 0 || stream->height == 0)
            return false;
        outputs += gives_output(stream);
        inputs += takes_input(stream);
    }
    return (outputs != 0 || fake_breaks(camera, FAKE_ACCEPTED_NO_OUTPUT))
           && (inputs <= 1 || fake_breaks(camera, FAKE_ACCEPTED_TWO_INPUTS));
}

/* Waits a little for the frames that are open: all of one may be told, and its worker not at the end of it yet. */
static bool is_idle(struct fake_camera *camera)
{
    struct timespec end;

    clock_gettime(CLOCK_MONOTONIC, &end);
    end.tv_nsec += IDLE_MS * 1000000;
    end.tv_sec += end.tv_nsec / 1000000000;
    end.tv_nsec %= 1000000000;
    while (camera->open != 0)
        if (pthread_cond_timedwait(&camera->changed, &camera->lock, &end) == ETIMEDOUT)
            break;
    return camera->open == 0;
}

/* What isn't valid, or comes while frames are open, leaves the configuration as it is. */
static int configure_streams(const struct camera3_device *device, camera3_stream_configuration_t *asked)
{
    struct fake_camera *camera = camera_of(device);
    int answer;

    pthread_mutex_lock(&camera->lock);
    answer = working(camera);
    if (answer == 0 && (asked == NULL || !is_idle(camera) || !is_valid(camera, asked)))
        answer = -EINVAL;
    if (answer == 0) {
        camera->stream_count = asked->num_streams;
        for (uint32_t i = 0; i < asked->num_streams; i++) {
            camera->streams[i] = asked->streams[i];
            asked->streams[i]->max_buffers = fake_breaks(camera, FAKE_NO_MAX_BUFFERS) ? 0 : camera->options.max_buffers;
        }
        camera->configured = true;
        camera->seen_settings = false;
    }
    pthread_mutex_unlock(&camera->lock);
    return answer;
}

/* ---- requests */

static bool is_configured(const struct fake_camera *camera, const camera3_stream_t *stream)
{
    for (uint32_t i = 0; i < camera->stream_count; i++)
        if (camera->streams[i] == stream)
            return gives_output(stream);
    return false;
}

static bool is_held(const struct fake_camera *camera, const buffer_handle_t *buffer)
{
    for (const struct fake_frame *frame = camera->first; frame != NULL; frame = frame->next)
        for (uint32_t i = 0; i < frame->count; i++)
            if (frame->targets[i].buffer == buffer && !frame->targets[i].back)
                return true;
    return false;
}

static bool is_valid_target(const struct fake_camera *camera, const camera3_stream_buffer_t *target)
{
    if (target->buffer == NULL || *target->buffer == NULL || target->stream == NULL)
        return false;
    return (is_configured(camera, target->stream) || fake_breaks(camera, FAKE_ACCEPTED_UNKNOWN_STREAM))
           && !is_held(camera, target->buffer);
}

static bool stands_twice(const camera3_capture_request_t *request, uint32_t place)
{
    for (uint32_t i = 0; i < place; i++)
        if (request->output_buffers[i].buffer == request->output_buffers[place].buffer
            || request->output_buffers[i].stream == request->output_buffers[place].stream)
            return true;
    return false;
}

/* Settings with an unknown test pattern. */
static bool has_bad_settings(const camera_metadata_t *settings)
{
    camera_metadata_ro_entry_t entry;

    return settings != NULL && find_camera_metadata_ro_entry(settings, ANDROID_SENSOR_TEST_PATTERN_MODE, &entry) == 0
           && entry.data.i32[0] > ANDROID_SENSOR_TEST_PATTERN_MODE_PN9;
}

static bool is_good_request(const struct fake_camera *camera, const camera3_capture_request_t *request)
{
    if (request == NULL || !camera->configured || request->num_output_buffers > FAKE_MOST_STREAMS)
        return false;
    if (camera->has_number && request->frame_number <= camera->last_number)
        return false;
    if (request->settings == NULL && !camera->seen_settings && !fake_breaks(camera, FAKE_ACCEPTED_NO_SETTINGS))
        return false;
    if (request->num_output_buffers == 0 && !fake_breaks(camera, FAKE_ACCEPTED_NO_OUTPUT))
        return false;
    for (uint32_t i = 0; i < request->num_output_buffers; i++)
        if (!is_valid_target(camera, &request->output_buffers[i]) || stands_twice(request, i))
            return false;
    return !has_bad_settings(request->settings);
}

static struct fake_frame *new_frame(const camera3_capture_request_t *request)
{
    struct fake_frame *frame = calloc(1, sizeof(*frame));

    if (frame == NULL)
        return NULL;
    frame->number = request->frame_number;
    frame->count = request->num_output_buffers;
    for (uint32_t i = 0; i < frame->count; i++) {
        const camera3_stream_buffer_t *target = &request->output_buffers[i];

        frame->targets[i] =
            (struct fake_target){ target->stream, target->buffer, target->acquire_fence, -1, false, false };
    }
    return frame;
}

static bool is_each(unsigned int count, unsigned int each)
{
    return each != 0 && count % each == 0;
}

/* What becomes of the frame, and whether the rule is broken with it: with each third one. */
static void settle(struct fake_camera *camera, struct fake_frame *frame)
{
    const struct fake_drops *drops = &camera->options.drops;
    unsigned int count = ++camera->begun;

    frame->victim = count % 3 == 1;
    if (is_each(count, drops->request) || is_lazy(camera, FAKE_LAZY_FAIL))
        frame->fate = FAKE_NO_REQUEST;
    else if (is_each(count, drops->result))
        frame->fate = FAKE_NO_RESULT;
    else if (is_each(count, drops->buffer))
        frame->fate = FAKE_NO_BUFFER;
}

/* Waits until there is room and no flush goes on. With the lock taken. */
static void wait_for_room(struct fake_camera *camera)
{
    while ((camera->flushing || camera->open >= FAKE_DEPTH) && !camera->dying && !camera->closed)
        pthread_cond_wait(&camera->changed, &camera->lock);
}

static void append(struct fake_camera *camera, struct fake_frame *frame)
{
    struct fake_frame **place = &camera->first;

    while (*place != NULL)
        place = &(*place)->next;
    *place = frame;
}

static int accept_frame(struct fake_camera *camera, const camera3_capture_request_t *request)
{
    struct fake_frame *frame = new_frame(request);

    if (frame == NULL)
        return -ENOMEM;
    settle(camera, frame);
    if (fake_breaks_with(camera, frame, FAKE_REFUSED_REQUEST) || is_lazy(camera, FAKE_LAZY_REQUEST)) {
        free(frame);
        return -EINVAL;
    }
    camera->has_number = true;
    camera->last_number = frame->number;
    camera->seen_settings = true;
    if (is_lazy(camera, FAKE_LAZY_RETURN)) {
        fake_frame_free(frame);
        return 0;
    }
    camera->open++;
    append(camera, frame);
    pthread_cond_broadcast(&camera->changed);
    return 0;
}

/* Requests are taken in the order in which they enter, also from a framework that makes several calls at once. */
static void take_turn_of_call(struct fake_camera *camera)
{
    struct timespec pause = { 0, (long)camera->options.call_us * 1000 };
    unsigned int ticket;

    pthread_mutex_lock(&camera->lock);
    ticket = camera->next_ticket++;
    pthread_mutex_unlock(&camera->lock);
    nanosleep(&pause, NULL);
    pthread_mutex_lock(&camera->lock);
    while (camera->served_ticket != ticket)
        pthread_cond_wait(&camera->changed, &camera->lock);
}

static void end_turn_of_call(struct fake_camera *camera)
{
    camera->served_ticket++;
    pthread_cond_broadcast(&camera->changed);
    pthread_mutex_unlock(&camera->lock);
}

static int process_capture_request(const struct camera3_device *device, camera3_capture_request_t *request)
{
    struct fake_camera *camera = camera_of(device);
    int answer;

    take_turn_of_call(camera);
    wait_for_room(camera);
    if (is_lazy(camera, FAKE_LAZY_GONE))
        camera->dying = camera->dead = true;
    answer = camera->dying ? -ENODEV : working(camera);
    if (answer == 0)
        answer = is_good_request(camera, request) ? accept_frame(camera, request) : -EINVAL;
    end_turn_of_call(camera);
    if (answer == -EINVAL && request != NULL && fake_breaks(camera, FAKE_REFUSED_AFTER_CALLBACK)
        && camera->callbacks != NULL)
        fake_tell_shutter(camera, request->frame_number);
    return answer;
}

/* ---- flush and close */

/* Lets the worker hand back all frames, and waits for it. With the lock taken. */
static void hand_back(struct fake_camera *camera)
{
    camera->flushing = true;
    pthread_cond_broadcast(&camera->changed);
    while (camera->open != 0 && camera->initialized && !camera->dead)
        pthread_cond_wait(&camera->changed, &camera->lock);
    camera->flushing = false;
    pthread_cond_broadcast(&camera->changed);
}

static int flush(const struct camera3_device *device)
{
    struct fake_camera *camera = camera_of(device);
    int answer;

    pthread_mutex_lock(&camera->lock);
    answer = is_lazy(camera, FAKE_LAZY_FLUSH) ? -EINVAL : working(camera);
    if (answer == 0 && !fake_breaks(camera, FAKE_FLUSH_LEFT) && !camera->dying) {
        hand_back(camera);
        answer = camera->dead ? -ENODEV : 0;
    }
    pthread_mutex_unlock(&camera->lock);
    return answer;
}

/* A callback that comes too late. */
static void *haunt(void *argument)
{
    struct fake_camera *camera = argument;
    struct timespec pause = { 0, 5000000 };

    nanosleep(&pause, NULL);
    fake_tell_error(camera, camera->last_number, NULL, CAMERA3_MSG_ERROR_RESULT);
    return NULL;
}

static void stop_worker(struct fake_camera *camera)
{
    pthread_mutex_lock(&camera->lock);
    camera->stopping = true;
    pthread_cond_broadcast(&camera->changed);
    pthread_mutex_unlock(&camera->lock);
    pthread_join(camera->worker, NULL);
}

static int close_camera(struct hw_device_t *device)
{
    struct fake_camera *camera = camera_of((const struct camera3_device *)device);
    bool was_closed;

    pthread_mutex_lock(&camera->lock);
    was_closed = camera->closed;
    if (!was_closed && !fake_breaks(camera, FAKE_CLOSE_LEFT))
        hand_back(camera);
    camera->closed = true;
    pthread_cond_broadcast(&camera->changed);
    pthread_mutex_unlock(&camera->lock);
    if (was_closed || !camera->initialized)
        return 0;
    stop_worker(camera);
    if (fake_breaks(camera, FAKE_CALLBACK_AFTER_CLOSE) && camera->has_number)
        camera->has_ghost = pthread_create(&camera->ghost, NULL, haunt, camera) == 0;
    return 0;
}

static void dump(const struct camera3_device *device, int descriptor)
{
    (void)device, (void)descriptor;
}

/* ---- a camera */

static unsigned int option(const char *name, unsigned int other)
{
    const char *value = getenv(name);

    return value == NULL ? other : (unsigned int)strtoul(value, NULL, 10);
}

/* KIND:N,.. */
static bool read_drops(const char *text, struct fake_drops *drops)
{
    while (text != NULL && *text != '\0') {
        char kind[16];
        unsigned int each;
        int length;

        if (sscanf(text, "%15[a-z]:%u%n", kind, &each, &length) != 2)
            return false;
        if (strcmp(kind, "request") == 0)
            drops->request = each;
        else if (strcmp(kind, "result") == 0)
            drops->result = each;
        else if (strcmp(kind, "buffer") == 0)
            drops->buffer = each;
        else
            return false;
        text += length;
        text += *text == ',';
    }
    return true;
}

static enum fake_lazy lazy_named(const char *name)
{
    static const char *const names[FAKE_LAZY_COUNT] = { "",        "open", "init",   "template", "configure",
                                                        "request", "gone", "return", "fail",     "flush" };
    int form = 0;

    while (form < FAKE_LAZY_COUNT && strcmp(name == NULL ? "" : name, names[form]) != 0)
        form++;
    return (enum fake_lazy)form;
}

/* The rule is broken by a device that fails. */
static bool needs_death(enum fake_rule rule)
{
    return rule == FAKE_ACCEPTED_DEAD || rule == FAKE_FAILED_WITH_FRAMES || rule == FAKE_CALLBACK_AFTER_FAILURE;
}

/* The rule is broken with frames that are out when a call returns. */
static bool needs_time(enum fake_rule rule)
{
    return rule == FAKE_FLUSH_LEFT || rule == FAKE_CLOSE_LEFT || rule == FAKE_FAILED_WITH_FRAMES;
}

static bool read_options(struct fake_options *options)
{
    options->broken = fake_rule_named(getenv("FAKE_BREAK"));
    options->lazy = lazy_named(getenv("FAKE_LAZY"));
    options->early = option("FAKE_EARLY", 0) != 0;
    options->die_after = option("FAKE_DIE_AFTER", needs_death(options->broken) ? 1 : 0);
    options->frame_us = option("FAKE_FRAME_US", needs_time(options->broken) ? 20000 : 1000);
    options->call_us = option("FAKE_CALL_US", 0);
    options->fence_ms = option("FAKE_FENCE_MS", 200);
    options->max_buffers = option("FAKE_MAX_BUFFERS", 4);
    if (options->broken == FAKE_RULE_COUNT) {
        fprintf(stderr, "fake_hal: no rule of a device is called %s\n", getenv("FAKE_BREAK"));
        return false;
    }
    if (options->lazy == FAKE_LAZY_COUNT) {
        fprintf(stderr, "fake_hal: no form is called %s\n", getenv("FAKE_LAZY"));
        return false;
    }
    if (!read_drops(getenv("FAKE_DROP"), &options->drops)) {
        fprintf(stderr, "fake_hal: what is FAKE_DROP=%s?\n", getenv("FAKE_DROP"));
        return false;
    }
    return true;
}

static camera3_device_ops_t ops = {
    .initialize = initialize,
    .configure_streams = configure_streams,
    .construct_default_request_settings = construct_default_request_settings,
    .process_capture_request = process_capture_request,
    .dump = dump,
    .flush = flush,
};

int fake_camera_new(const hw_module_t *module, struct fake_camera **made)
{
    struct fake_camera *camera = calloc(1, sizeof(*camera));
    pthread_condattr_t clock;

    if (camera == NULL)
        return -ENOMEM;
    if (!read_options(&camera->options) || is_lazy(camera, FAKE_LAZY_OPEN)) {
        free(camera);
        return -EINVAL;
    }
    pthread_mutex_init(&camera->lock, NULL);
    pthread_condattr_init(&clock);
    pthread_condattr_setclock(&clock, CLOCK_MONOTONIC);
    pthread_cond_init(&camera->changed, &clock);
    pthread_condattr_destroy(&clock);
    camera->device.common.tag = HARDWARE_DEVICE_TAG;
    camera->device.common.version = CAMERA_DEVICE_API_VERSION_3_3;
    camera->device.common.module = (hw_module_t *)module;
    camera->device.common.close = close_camera;
    camera->device.ops = &ops;
    *made = camera;
    return 0;
}

void fake_camera_free(struct fake_camera *camera)
{
    if (camera->has_ghost)
        pthread_join(camera->ghost, NULL);
    close_camera(&camera->device.common);
    for (int i = 0; i < FAKE_TEMPLATES; i++)
        if (camera->settings[i] != NULL)
            free_camera_metadata(camera->settings[i]);
    if (camera->part != NULL)
        free_camera_metadata(camera->part);
    if (camera->nothing != NULL)
        free_camera_metadata(camera->nothing);
    pthread_cond_destroy(&camera->changed);
    pthread_mutex_destroy(&camera->lock);
    free(camera);
}
