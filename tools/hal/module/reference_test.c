/*
 * Tests of the reference HAL that no hal log shows: what is refused and by which error, what metadata says, waiting,
 * fences, and that nothing is left open. usage: reference_test libpauvigre_hal.so
 */
#include "test_client.h"

#include "buffer_file.h"

#include <dirent.h>
#include <errno.h>
#include <stdio.h>
#include <stdlib.h>
#include <string.h>
#include <system/camera_metadata.h>
#include <time.h>
#include <unistd.h>

#define ALL CLIENT_STREAMS

static void pause_ms(long ms)
{
    struct timespec time = { ms / 1000, ms % 1000 * 1000000 };

    nanosleep(&time, NULL);
}

static int open_files(void)
{
    DIR *folder = opendir("/proc/self/fd");
    int count = 0;

    while (folder != NULL && readdir(folder) != NULL)
        count++;
    if (folder != NULL)
        closedir(folder);
    return count;
}

/* ---- the module */

static void test_module(struct client *client)
{
    struct camera_info info;
    const vendor_tag_ops_t *tags = &client->tags;
    camera_metadata_ro_entry_t entry;

    client_check(client->module->get_number_of_cameras() == 1, "there is one camera");
    client_check(client->module->get_camera_info(1, &info) == -EINVAL, "there is no camera 1");
    client_check(client->module->get_camera_info(0, &info) == 0, "camera 0 says what it is");
    client_check(find_camera_metadata_ro_entry(info.static_camera_characteristics,
                                               ANDROID_REQUEST_MAX_NUM_OUTPUT_STREAMS, &entry)
                         == 0
                     && entry.count == 3 && entry.data.i32[0] == 1 && entry.data.i32[1] == 3 && entry.data.i32[2] == 0,
                 "one RAW16 stream, three of YUV, none that stalls");
    client_check(find_camera_metadata_ro_entry(info.static_camera_characteristics,
                                               ANDROID_SCALER_AVAILABLE_STREAM_CONFIGURATIONS, &entry)
                         == 0
                     && entry.count == 16,
                 "four sizes");
    client_check(tags->get_tag_count(tags) == 2 && tags->get_tag_type(tags, 0x80000000) == TYPE_BYTE
                     && tags->get_tag_type(tags, 0x80000001) == TYPE_INT32 && tags->get_tag_type(tags, 0x80000002) == -1
                     && strcmp(tags->get_tag_name(tags, 0x80000001), "level") == 0,
                 "two vendor tags");
}

static void test_environment(struct client *client)
{
    static const char *const malformed[] = { "request",       "request 1 2",        "buffer 7",
                                             "buffer 7 256",  "request 3,",         ",",
                                             "request -1",    "request 01",         "request 4294967296",
                                             "Request 1",     "result 1; result 2", "device 1 1",
                                             "buffer 1 2 3 4" };

    for (size_t i = 0; i < sizeof(malformed) / sizeof(malformed[0]); i++) {
        setenv("PAUVIGRE_FAULTS", malformed[i], 1);
        client_check(client_open(client) == -EINVAL, malformed[i]);
    }
    unsetenv("PAUVIGRE_FAULTS");
    setenv("PAUVIGRE_FAST", "yes", 1);
    client_check(client_open(client) == -EINVAL, "PAUVIGRE_FAST is 0 or 1");
    setenv("PAUVIGRE_FAST", "1", 1);
}

/* ---- what is refused */

static void test_before_init(struct client *client)
{
    hw_device_t *other = NULL;
    camera3_device_t *device;

    client_check(client_open(client) == 0, "the camera opens");
    device = client->device;
    client_check(client->module->common.methods->open(&client->module->common, "0", &other) == -EBUSY,
                 "an open camera can't be opened");
    client_check(client->module->common.methods->open(&client->module->common, "1", &other) == -EINVAL,
                 "there is no camera 1 to be opened");
    client_check(device->ops->construct_default_request_settings(device, 1) == NULL, "no template before initialize");
    client_check(device->ops->flush(device) == -ENOSYS, "no flush before initialize");
    client_check(device->ops->process_capture_request(device, NULL) == -ENOSYS, "no request before initialize");
    client_check(device->ops->initialize(device, NULL) == -EINVAL, "no initialize without callbacks");
    client_check(device->ops->initialize(device, &client->callbacks) == 0, "it initializes");
    client_check(device->ops->initialize(device, &client->callbacks) == -ENOSYS, "once");
    client_close(client);
}

static void test_configurations(struct client *client)
{
    camera3_device_t *device;
    camera3_stream_t stream, twice[2];
    camera3_stream_t *list[] = { &stream, &twice[0], &twice[1], &stream, &stream, &stream };
    camera3_stream_configuration_t asked = { .num_streams = 1, .streams = list };

    client_start(client);
    device = client->device;
    stream = client->streams[2];
    twice[0] = twice[1] = client->streams[3];
    client_check(client->streams[0].max_buffers == 4 && client->streams[3].max_buffers == 3, "max_buffers");
    client_check(device->ops->configure_streams(device, NULL) == -EINVAL, "no configuration that isn't there");
    asked.num_streams = 6;
    client_check(device->ops->configure_streams(device, &asked) == -EINVAL, "not six streams");
    asked.num_streams = 3;
    client_check(device->ops->configure_streams(device, &asked) == -EINVAL, "not two RAW16 streams");
    asked.num_streams = 1;
    stream.rotation = CAMERA3_STREAM_ROTATION_90;
    client_check(device->ops->configure_streams(device, &asked) == -EINVAL, "nothing is rotated");
    stream.rotation = CAMERA3_STREAM_ROTATION_0;
    stream.stream_type = CAMERA3_STREAM_BIDIRECTIONAL;
    client_check(device->ops->configure_streams(device, &asked) == -EINVAL, "no input");
    stream.stream_type = CAMERA3_STREAM_OUTPUT;
    asked.operation_mode = CAMERA3_STREAM_CONFIGURATION_CONSTRAINED_HIGH_SPEED_MODE;
    client_check(device->ops->configure_streams(device, &asked) == -EINVAL, "no other mode");
    asked.operation_mode = CAMERA3_STREAM_CONFIGURATION_NORMAL_MODE;
    client_check(device->ops->configure_streams(device, &asked) == 0, "a stream alone");
    client_close(client);
}

/* The request, changed in one way, is refused, and nothing is told of it. */
static void refuse(struct client *client, struct client_request *made, const char *what)
{
    camera3_device_t *device = client->device;

    client_check(device->ops->process_capture_request(device, &made->request) == -EINVAL, what);
    client_fill(client, made, 0, ALL, -1);
    made->request.settings = device->ops->construct_default_request_settings(device, CAMERA3_TEMPLATE_PREVIEW);
}

static void test_requests(struct client *client)
{
    struct client_request made;
    camera3_stream_t other;
    buffer_handle_t none = NULL, small = buffer_file_new(16);

    client_start(client);
    other = client->streams[0];
    client_check(client->device->ops->process_capture_request(client->device, NULL) == -EINVAL, "no request");
    client_fill(client, &made, 0, ALL, -1);
    refuse(client, &made, "no settings yet");
    made.request.num_output_buffers = 0;
    refuse(client, &made, "no buffer");
    made.request.output_buffers = NULL;
    refuse(client, &made, "no list of buffers");
    made.targets[1].buffer = &none;
    refuse(client, &made, "no handle");
    made.targets[1].buffer = &small;
    refuse(client, &made, "too little memory");
    made.targets[2].stream = &other;
    refuse(client, &made, "an unknown stream");
    made.targets[2].stream = &client->streams[1];
    refuse(client, &made, "a stream twice");
    made.targets[3].buffer = made.targets[0].buffer;
    refuse(client, &made, "a buffer twice");
    made.targets[4] = made.targets[0];
    made.request.num_output_buffers = 5;
    refuse(client, &made, "five buffers");
    made.request.input_buffer = &made.targets[0];
    refuse(client, &made, "an input");
    client_check(client->device->ops->process_capture_request(client->device, &made.request) == 0, "a good one");
    client_check(client_wait(client, 0, 0) && client->frames[0].back[0].status == CAMERA3_BUFFER_STATUS_OK,
                 "comes back");
    client_close(client);
    buffer_file_free(small);
}

/* ---- settings and metadata */

/* Asks for the frame with these settings, and these alone. */
static int ask_with(struct client *client, uint32_t frame, uint32_t tag, const void *value)
{
    camera_metadata_t *pack = allocate_camera_metadata(1, 8);
    struct client_request made;
    int answer;

    add_camera_metadata_entry(pack, tag, value, 1);
    client_fill(client, &made, frame, 1, -1);
    made.request.settings = pack;
    answer = client->device->ops->process_capture_request(client->device, &made.request);
    free_camera_metadata(pack);
    return answer;
}

static void test_ranges(struct client *client)
{
    static const int64_t exposures[] = { 99999, 100000001, -1, 0 };
    static const int32_t sensitivities[] = { 99, 1601, -1 };
    static const int32_t levels[] = { 256, -1 };

    client_start(client);
    for (size_t i = 0; i < sizeof(exposures) / sizeof(exposures[0]); i++)
        client_check(ask_with(client, 0, ANDROID_SENSOR_EXPOSURE_TIME, &exposures[i]) == -EINVAL, "an exposure");
    for (size_t i = 0; i < sizeof(sensitivities) / sizeof(sensitivities[0]); i++)
        client_check(ask_with(client, 0, ANDROID_SENSOR_SENSITIVITY, &sensitivities[i]) == -EINVAL, "a sensitivity");
    for (size_t i = 0; i < sizeof(levels) / sizeof(levels[0]); i++)
        client_check(ask_with(client, 0, 0x80000001, &levels[i]) == -EINVAL, "a level");
    client_check(ask_with(client, 0, 0x80000000, &(uint8_t){ 3 }) == -EINVAL, "a pattern");
    client_check(ask_with(client, 0, ANDROID_SENSOR_TEST_PATTERN_MODE, &(int32_t){ 1 }) == -EINVAL, "a test pattern");
    client_check(ask_with(client, 0, ANDROID_SENSOR_EXPOSURE_TIME, &(int64_t){ 100000000 }) == 0, "the longest");
    client_check(ask_with(client, 1, ANDROID_SENSOR_SENSITIVITY, &(int32_t){ 1600 }) == 0, "the most sensitive");
    client_check(client_wait(client, 0, 0) && client_wait(client, 1, 0), "both come back");
    client_close(client);
    client_check(client->frames[0].exposure == 100000000 && client->frames[0].iso == 100, "as asked, else a preview's");
    client_check(client->frames[1].exposure == 10000000 && client->frames[1].iso == 1600, "and the other");
}

static void test_results(struct client *client)
{
    const struct client_frame *frame = &client->frames[0];
    const camera_metadata_t *still;
    camera3_device_t *device;
    struct client_request made;

    client_start(client);
    device = client->device;
    for (int type = 1; type <= 6; type++)
        client_check(device->ops->construct_default_request_settings(device, type) != NULL, "six templates");
    client_check(device->ops->construct_default_request_settings(device, 0) == NULL, "template 0 is none");
    client_check(device->ops->construct_default_request_settings(device, 7) == NULL, "template 7 is none");
    still = device->ops->construct_default_request_settings(device, CAMERA3_TEMPLATE_STILL_CAPTURE);
    client_check(still == device->ops->construct_default_request_settings(device, CAMERA3_TEMPLATE_STILL_CAPTURE),
                 "the same template is at the same place");
    client_fill(client, &made, 0, ALL, -1);
    made.request.settings = still;
    client_check(device->ops->process_capture_request(device, &made.request) == 0, "a still");
    for (uint32_t stream = 0; stream < ALL; stream++)
        client_check(client_wait(client, 0, stream) && frame->back[stream].written
                         && frame->back[stream].status == CAMERA3_BUFFER_STATUS_OK
                         && frame->back[stream].release_fence == -1,
                     "a picture, written when it comes back");
    client_close(client);
    client_check(frame->parts == 3 && frame->shutter != 0 && frame->timestamp == (int64_t)frame->shutter,
                 "three parts, and the shutter's time");
    client_check(frame->exposure == 20000000 && frame->iso == 100 && frame->pattern == 1 && frame->level == 200,
                 "the settings of a still");
}

/* ---- waiting */

struct asking {
    struct client *client;
    uint32_t frame;
    int fence, answer;
    pthread_t thread;
};

static void *ask_one(void *argument)
{
    struct asking *asking = argument;

    asking->answer = client_ask(asking->client, asking->frame, 1, asking->fence);
    return NULL;
}

static void *flush_one(void *argument)
{
    struct asking *asking = argument;

    asking->answer = asking->client->device->ops->flush(asking->client->device);
    return NULL;
}

/* As many buffers of a stream as may be at the device, and none of them can come back. */
static void fill_up(struct client *client, int fence)
{
    client_start(client);
    for (uint32_t frame = 0; frame < 4; frame++)
        client_check(client_ask(client, frame, 1, fence) == 0, "a request is taken");
}

static void test_waiting(struct client *client)
{
    struct asking fifth = { .client = client, .frame = 4, .fence = -1, .answer = 1 };
    int fence = client_fence();

    fill_up(client, fence);
    pthread_create(&fifth.thread, NULL, ask_one, &fifth);
    pause_ms(50);
    client_check(!client_has(client, 0, 0), "no buffer is written before its fence is signalled");
    client_signal(fence);
    pthread_join(fifth.thread, NULL);
    client_check(fifth.answer == 0, "a request that has to wait is taken later");
    client_check(client_wait(client, 4, 0), "and comes back");
    client_close(client);
    close(fence);
}

static void test_flushes(struct client *client)
{
    struct asking flushes[2] = { { .client = client }, { .client = client } };
    struct asking waiting = { .client = client, .frame = 4, .fence = -1, .answer = 1 };
    int fence = client_fence();

    fill_up(client, fence);
    pthread_create(&waiting.thread, NULL, ask_one, &waiting);
    pause_ms(20);
    for (size_t i = 0; i < 2; i++)
        pthread_create(&flushes[i].thread, NULL, flush_one, &flushes[i]);
    for (size_t i = 0; i < 2; i++)
        pthread_join(flushes[i].thread, NULL);
    client_check(flushes[0].answer == 0 && flushes[1].answer == 0, "two flushes at once return");
    for (uint32_t frame = 0; frame < 4; frame++) {
        struct client_back *back = &client->frames[frame].back[0];

        client_check(back->count == 1 && back->status == CAMERA3_BUFFER_STATUS_ERROR && back->release_fence >= 0,
                     "a flush brings back all, with the fences that weren't waited for");
        close(back->release_fence);
    }
    pthread_join(waiting.thread, NULL);
    client_check(waiting.answer == 0 && client_wait(client, 4, 0), "a request that waited is taken then");
    client_close(client);
    close(fence);
}

/* ---- many at once */

#define FLUSHERS 3

static void *flush_often(void *argument)
{
    struct asking *asking = argument;

    for (int i = 0; i < 20 && asking->answer == 0; i++) {
        asking->answer = asking->client->device->ops->flush(asking->client->device);
        pause_ms(2);
    }
    return NULL;
}

/* Each buffer comes back once, good or with an error of it or of its request. */
static bool is_told_once(const struct client_frame *frame)
{
    int failed = 0;

    for (uint32_t stream = 0; stream < ALL; stream++) {
        if (frame->back[stream].count != 1)
            return false;
        failed += frame->back[stream].status == CAMERA3_BUFFER_STATUS_ERROR;
    }
    if (frame->errors[CAMERA3_MSG_ERROR_REQUEST] != 0)
        return failed == ALL && frame->parts == 0 && frame->errors[CAMERA3_MSG_ERROR_BUFFER] == 0;
    return failed == frame->errors[CAMERA3_MSG_ERROR_BUFFER]
           && (frame->parts == 3) == (frame->errors[CAMERA3_MSG_ERROR_RESULT] == 0);
}

static void test_many_flushes(struct client *client)
{
    struct asking flushers[FLUSHERS];

    client_start(client);
    for (size_t i = 0; i < FLUSHERS; i++) {
        flushers[i] = (struct asking){ .client = client };
        pthread_create(&flushers[i].thread, NULL, flush_often, &flushers[i]);
    }
    for (uint32_t frame = 0; frame < CLIENT_FRAMES; frame++)
        client_check(client_ask(client, frame, ALL, -1) == 0, "a request is taken beside flushes");
    for (size_t i = 0; i < FLUSHERS; i++) {
        pthread_join(flushers[i].thread, NULL);
        client_check(flushers[i].answer == 0, "a flush beside others returns");
    }
    client_close(client);
    for (uint32_t frame = 0; frame < CLIENT_FRAMES; frame++)
        client_check(is_told_once(&client->frames[frame]), "each buffer comes back once");
}

/* A close while a request waits: its framework breaks a rule, and hurts nobody. */
static void test_close(struct client *client)
{
    struct asking waiting = { .client = client, .frame = 4, .fence = -1, .answer = 1 };
    camera3_device_t *device;
    int fence = client_fence();

    fill_up(client, fence);
    device = client->device;
    pthread_create(&waiting.thread, NULL, ask_one, &waiting);
    pause_ms(20);
    client_close(client);
    pthread_join(waiting.thread, NULL);
    client_check(waiting.answer == -ENODEV, "a request that waits at the close is refused");
    for (uint32_t frame = 0; frame < 4; frame++) {
        client_check(client->frames[frame].back[0].count == 1, "a close brings back all");
        close(client->frames[frame].back[0].release_fence);
    }
    client_check(device->ops->flush(device) == -ENODEV, "no flush after the close");
    client_check(device->ops->process_capture_request(device, NULL) == -ENODEV, "no request");
    client_check(device->ops->construct_default_request_settings(device, 1) == NULL, "no template");
    client_check(device->common.close(&device->common) == -ENODEV, "no second close");
    close(fence);
}

static void test_failure(struct client *client)
{
    FILE *said = tmpfile();

    setenv("PAUVIGRE_FAULTS", "request 0,result 1, buffer 2 0 , device 3", 1);
    client_start(client);
    unsetenv("PAUVIGRE_FAULTS");
    for (uint32_t frame = 0; frame < 4; frame++)
        client_check(client_ask(client, frame, 1, -1) == 0, "a request is taken");
    client->device->ops->dump(client->device, fileno(said));
    client_check(client_wait(client, 3, 0), "all come back");
    client_check(client->device->ops->flush(client->device) == -ENODEV, "a device that failed does nothing");
    client_check(client_ask(client, 5, 1, -1) == -ENODEV, "but close");
    client_close(client);
    client_check(client->dead, "the device's failure is told");
    client_check(client->frames[0].errors[CAMERA3_MSG_ERROR_REQUEST] == 1, "the request's");
    client_check(client->frames[1].errors[CAMERA3_MSG_ERROR_RESULT] == 1 && client->frames[1].parts == 2,
                 "the result's");
    client_check(client->frames[2].errors[CAMERA3_MSG_ERROR_BUFFER] == 1 && client->frames[2].parts == 3,
                 "the buffer's");
    client_check(lseek(fileno(said), 0, SEEK_END) > 0, "a dump says something");
    fclose(said);
}

int main(int count, char **words)
{
    static struct client client;
    int files;

    if (count != 2)
        return 2;
    client_load(&client, words[1]);
    test_module(&client);
    test_environment(&client);
    test_before_init(&client);
    files = open_files();
    test_configurations(&client);
    test_requests(&client);
    test_ranges(&client);
    test_results(&client);
    test_waiting(&client);
    test_flushes(&client);
    test_many_flushes(&client);
    test_close(&client);
    test_failure(&client);
    client_check(open_files() == files, "no file is left open");
    client_unload(&client);
    return client_status();
}
