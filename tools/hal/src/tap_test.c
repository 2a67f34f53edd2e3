/*
 * Tests the tap alone, against a camera that does nothing: what it writes of each call and callback, numbers of
 * streams, buffers and fences, what stops a log, several logs at once, and that no line is lost where the process dies.
 */
#include "hal_tap.h"

#include <errno.h>
#include <fcntl.h>
#include <hardware/camera3.h>
#include <pthread.h>
#include <signal.h>
#include <stdio.h>
#include <stdlib.h>
#include <string.h>
#include <sys/eventfd.h>
#include <sys/resource.h>
#include <sys/wait.h>
#include <system/camera_metadata.h>
#include <unistd.h>

#define MOST_TEXT 16384
#define THREADS 4
#define ROUNDS 500

/* ---- a camera and a framework that do nothing */

struct camera {
    camera3_device_t device;
    const camera3_callback_ops_t *callbacks;
    const camera_metadata_t *settings;
    int answer; /* of each call */
};

static struct camera *camera_of(const struct camera3_device *device)
{
    return (struct camera *)device;
}

static int initialize(const struct camera3_device *device, const camera3_callback_ops_t *callbacks)
{
    camera_of(device)->callbacks = callbacks;
    return camera_of(device)->answer;
}

static int configure_streams(const struct camera3_device *device, camera3_stream_configuration_t *configuration)
{
    for (uint32_t i = 0; i < configuration->num_streams; i++)
        configuration->streams[i]->max_buffers = 3 + i;
    return camera_of(device)->answer;
}

static const camera_metadata_t *construct_default_request_settings(const struct camera3_device *device, int template_id)
{
    (void)template_id;
    return camera_of(device)->settings;
}

static int process_capture_request(const struct camera3_device *device, camera3_capture_request_t *request)
{
    (void)request;
    return camera_of(device)->answer;
}

static int flush(const struct camera3_device *device)
{
    return camera_of(device)->answer;
}

static int close_camera(struct hw_device_t *device)
{
    (void)device;
    return 0;
}

static camera3_device_ops_t ops = {
    .initialize = initialize,
    .configure_streams = configure_streams,
    .construct_default_request_settings = construct_default_request_settings,
    .process_capture_request = process_capture_request,
    .flush = flush,
};

static void on_result(const struct camera3_callback_ops *callbacks, const camera3_capture_result_t *result)
{
    (void)callbacks, (void)result;
}

static void on_notify(const struct camera3_callback_ops *callbacks, const camera3_notify_msg_t *message)
{
    (void)callbacks, (void)message;
}

static const camera3_callback_ops_t framework = { .process_capture_result = on_result, .notify = on_notify };

/* ---- a bench: a log in a folder of its own, a camera, and the tap's device in its place */

struct bench {
    char path[512];
    hal_tap *tap;
    struct camera camera;
    camera3_device_t *device;
    camera3_stream_t streams[20];
    native_handle_t natives[4];
    buffer_handle_t handles[4];
};

static const char *folder;
static int failed;

static void start(struct bench *bench, const char *name)
{
    memset(bench, 0, sizeof(*bench));
    snprintf(bench->path, sizeof(bench->path), "%s/%s.log", folder, name);
    bench->camera.device.common.close = close_camera;
    bench->camera.device.ops = &ops;
    bench->tap = hal_tap_new(bench->path, 2);
    bench->device =
        bench->tap == NULL ? NULL : (camera3_device_t *)hal_tap_wrap(bench->tap, &bench->camera.device.common);
    if (bench->device == NULL) {
        perror(bench->path);
        exit(2);
    }
    for (size_t i = 0; i < 4; i++)
        bench->handles[i] = &bench->natives[i];
    for (size_t i = 0; i < 20; i++) {
        bench->streams[i].format = HAL_PIXEL_FORMAT_YCbCr_420_888;
        bench->streams[i].width = 640;
        bench->streams[i].height = 480;
    }
    bench->device->ops->initialize(bench->device, &framework);
}

static void read_text(const char *path, char *text)
{
    int file = open(path, O_RDONLY);
    ssize_t count = file < 0 ? 0 : read(file, text, MOST_TEXT - 1);

    text[count < 0 ? 0 : count] = '\0';
    if (file >= 0)
        close(file);
}

/* What the log has behind its first five lines, which start() made. */
static void expect(struct bench *bench, const char *name, const char *lines)
{
    static const char head[] = "hal 1 2\nopen begin\nopen end ok\ninit begin\ninit end ok\n";
    char text[MOST_TEXT];
    bool same;

    hal_tap_free(bench->tap);
    read_text(bench->path, text);
    same = strncmp(text, head, sizeof(head) - 1) == 0 && strcmp(text + sizeof(head) - 1, lines) == 0;
    printf("%s %s\n", same ? "passed" : "FAILED", name);
    if (!same) {
        printf("the log is\n%sand not\n%s%s", text, head, lines);
        failed++;
    }
}

static void request(struct bench *bench, uint32_t frame, uint32_t count, const camera3_stream_buffer_t *targets)
{
    camera3_capture_request_t made = { .frame_number = frame, .num_output_buffers = count, .output_buffers = targets };

    bench->device->ops->process_capture_request(bench->device, &made);
}

static void result(struct bench *bench, uint32_t frame, uint32_t count, const camera3_stream_buffer_t *buffers)
{
    camera3_capture_result_t made = { .frame_number = frame, .num_output_buffers = count, .output_buffers = buffers };

    bench->camera.callbacks->process_capture_result(bench->camera.callbacks, &made);
}

static camera3_stream_buffer_t buffer_of(struct bench *bench, int stream, int handle, int acquire, int release)
{
    return (camera3_stream_buffer_t){ .stream = &bench->streams[stream],
                                      .buffer = &bench->handles[handle],
                                      .acquire_fence = acquire,
                                      .release_fence = release };
}

/* ---- calls */

static void test_calls(void)
{
    struct bench bench;
    camera3_stream_t *streams[3];
    camera3_stream_configuration_t asked = { .num_streams = 3, .streams = streams, .operation_mode = 7 };

    start(&bench, "calls");
    for (size_t i = 0; i < 3; i++)
        streams[i] = &bench.streams[2 - i];
    bench.streams[2].rotation = CAMERA3_STREAM_ROTATION_270;
    bench.streams[1].stream_type = CAMERA3_STREAM_INPUT;
    bench.streams[1].format = 0x1F0;
    bench.streams[0].stream_type = CAMERA3_STREAM_BIDIRECTIONAL;
    bench.streams[0].format = HAL_PIXEL_FORMAT_BLOB;
    bench.device->ops->construct_default_request_settings(bench.device, 1);
    bench.device->ops->configure_streams(bench.device, &asked);
    bench.camera.answer = -EINVAL;
    bench.device->ops->configure_streams(bench.device, &asked);
    bench.camera.answer = -12345;
    bench.device->ops->flush(bench.device);
    bench.camera.answer = -ENODEV;
    request(&bench, 4000000000u, 0, NULL);
    hal_tap_note(bench.tap, "a note of %d\tcharacters", 1);
    bench.device->common.close(&bench.device->common);
    expect(&bench, "calls",
           "template 1 begin\ntemplate 1 end null\n"
           "configure begin mode:7 0:YUVx640x480:r270 1:H1F0x640x480:in 2:BLOBx640x480:bidi\n"
           "configure end ok 0:3 1:4 2:5\n"
           "configure begin mode:7 0:YUVx640x480:r270 1:H1F0x640x480:in 2:BLOBx640x480:bidi\n"
           "configure end error EINVAL\n"
           "flush begin\nflush end error E12345\n"
           "request 4000000000 begin same\nrequest 4000000000 end error ENODEV\n"
           "# a note of 1?characters\n"
           "close begin\nclose end\n");
}

/* ---- buffers */

/* A buffer is known by its handle, wherever that lies. */
static void test_buffers(void)
{
    struct bench bench;
    camera3_stream_buffer_t targets[3], back;
    buffer_handle_t copy, foreign, none = NULL;

    start(&bench, "buffers");
    targets[0] = buffer_of(&bench, 0, 0, -1, -1);
    targets[1] = buffer_of(&bench, 1, 1, -1, -1);
    targets[2] = buffer_of(&bench, 1, 2, -1, -1);
    targets[2].buffer = &none;
    request(&bench, 0, 3, targets);
    copy = bench.handles[1];
    foreign = &bench.natives[3];
    back = targets[1];
    back.buffer = &copy;
    result(&bench, 0, 1, &back);
    back.buffer = &foreign;
    result(&bench, 0, 1, &back);
    back.buffer = (buffer_handle_t *)16;
    back.stream = &bench.streams[9];
    result(&bench, 0, 1, &back);
    back = targets[2];
    back.status = CAMERA3_BUFFER_STATUS_ERROR;
    result(&bench, 0, 1, &back);
    back.status = 5;
    back.acquire_fence = 0;
    result(&bench, 0, 1, &back);
    expect(&bench, "buffers",
           "request 0 begin same 0:b0:- 1:b1:- 1:b2:- nohandle\nrequest 0 end ok\n"
           "result 0 partial 0 none 1:b1:ok:-\n"
           "result 0 partial 0 none 1:b?:ok:-\n"
           "result 0 partial 0 none ?:b?:ok:-\n"
           "result 0 partial 0 none 1:b2:error:-\n"
           "result 0 partial 0 none 1:b2:?:-:acquire\n");
}

/* ---- fences */

/* A fence is known by its sync object, whatever the descriptor. */
static void test_fences(void)
{
    struct bench bench;
    camera3_stream_buffer_t targets[3], back;
    int one = eventfd(0, 0), other = eventfd(0, 0), foreign = eventfd(0, 0), again = dup(one), returned = dup(other);

    start(&bench, "fences");
    targets[0] = buffer_of(&bench, 0, 0, one, -1);
    targets[1] = buffer_of(&bench, 1, 1, other, -1);
    targets[2] = buffer_of(&bench, 2, 2, again, -1);
    request(&bench, 0, 3, targets);
    close(other);
    back = buffer_of(&bench, 1, 1, -1, returned);
    result(&bench, 0, 1, &back);
    back = buffer_of(&bench, 0, 0, -1, foreign);
    result(&bench, 0, 1, &back);
    back = buffer_of(&bench, 2, 2, -1, one);
    result(&bench, 0, 1, &back);
    back.release_fence = one;
    result(&bench, 0, 1, &back);
    bench.camera.answer = -EINVAL;
    request(&bench, 1, 1, targets);
    back = buffer_of(&bench, 0, 0, -1, one);
    result(&bench, 1, 1, &back);
    close(one), close(foreign), close(again), close(returned);
    expect(&bench, "fences",
           "request 0 begin same 0:b0:0 1:b1:1 2:b2:0\nrequest 0 end ok\n"
           "result 0 partial 0 none 1:b1:ok:1\n"
           "result 0 partial 0 none 0:b0:ok:?\n"
           "result 0 partial 0 none 2:b2:ok:0\n"
           "result 0 partial 0 none 2:b2:ok:?\n" /* all of it is back: no fence of the framework's is left */
           "request 1 begin same 0:b0:2\nrequest 1 end error EINVAL\n"
           "result 1 partial 0 none 0:b0:ok:?\n");
}

/* ---- callbacks */

static void notify(struct bench *bench, int code, uint32_t frame, camera3_stream_t *stream)
{
    camera3_notify_msg_t message = { .type = CAMERA3_MSG_ERROR };

    message.message.error.error_code = code;
    message.message.error.frame_number = frame;
    message.message.error.error_stream = stream;
    bench->camera.callbacks->notify(bench->camera.callbacks, &message);
}

static void test_callbacks(void)
{
    struct bench bench;
    camera3_notify_msg_t shutter = { .type = CAMERA3_MSG_SHUTTER };
    camera3_stream_buffer_t target;
    camera_metadata_t *pack = allocate_camera_metadata(2, 16);
    uint8_t mode = ANDROID_CONTROL_MODE_AUTO;
    camera3_capture_result_t made = { .frame_number = 3, .partial_result = 2, .result = pack };

    start(&bench, "callbacks");
    target = buffer_of(&bench, 4, 0, -1, -1);
    request(&bench, 3, 1, &target);
    shutter.message.shutter.frame_number = 3;
    shutter.message.shutter.timestamp = UINT64_MAX;
    bench.camera.callbacks->notify(bench.camera.callbacks, &shutter);
    bench.camera.callbacks->process_capture_result(bench.camera.callbacks, &made);
    add_camera_metadata_entry(pack, ANDROID_CONTROL_MODE, &mode, 1);
    made.input_buffer = &target;
    bench.camera.callbacks->process_capture_result(bench.camera.callbacks, &made);
    notify(&bench, CAMERA3_MSG_ERROR_REQUEST, 3, NULL);
    notify(&bench, CAMERA3_MSG_ERROR_RESULT, 3, NULL);
    notify(&bench, CAMERA3_MSG_ERROR_BUFFER, 3, &bench.streams[4]);
    notify(&bench, CAMERA3_MSG_ERROR_BUFFER, 3, &bench.streams[5]);
    notify(&bench, CAMERA3_MSG_ERROR_DEVICE, 3, NULL);
    notify(&bench, 9, 3, NULL);
    free_camera_metadata(pack);
    expect(&bench, "callbacks",
           "request 3 begin same 0:b0:-\nrequest 3 end ok\n"
           "shutter 3 18446744073709551615\n"
           "result 3 partial 2 empty\nresult 3 partial 2 metadata input\n"
           "error 3 request\nerror 3 result\nerror 3 buffer:0\nerror 3 buffer:?\nerror device\n"
           "# an error of code 9, which the header doesn't have\n");
}

/* ---- what stops a log */

static void test_too_many_streams(void)
{
    struct bench bench;
    camera3_stream_t *streams[17];
    camera3_stream_configuration_t asked = { .num_streams = 17, .streams = streams };

    start(&bench, "too-many-streams");
    for (size_t i = 0; i < 17; i++)
        streams[i] = &bench.streams[i];
    bench.device->ops->configure_streams(bench.device, &asked);
    bench.device->ops->flush(bench.device);
    expect(&bench, "a line that the log can't hold", "# the log stops here: a configuration of more than 16 streams\n");
}

/* The file may have so many bytes; the line that would pass that is left out, and all behind it. */
static void test_full_disk(void)
{
    struct rlimit limit = { 100, RLIM_INFINITY }, before;
    struct bench bench;

    start(&bench, "full-disk");
    signal(SIGXFSZ, SIG_IGN);
    getrlimit(RLIMIT_FSIZE, &before);
    setrlimit(RLIMIT_FSIZE, &limit);
    for (int i = 0; i < 5; i++)
        bench.device->ops->flush(bench.device);
    setrlimit(RLIMIT_FSIZE, &before);
    bench.device->ops->flush(bench.device);
    expect(&bench, "a full disk", "flush begin\nflush end ok\nflush begin\n");
}

/* ---- several threads and logs, and the death of the process */

static void *call_back(void *argument)
{
    struct bench *bench = argument;

    for (uint32_t i = 0; i < ROUNDS; i++) {
        notify(bench, CAMERA3_MSG_ERROR_RESULT, i, NULL);
        bench->device->ops->flush(bench->device);
    }
    return NULL;
}

static int count_lines(const char *path)
{
    FILE *file = fopen(path, "r");
    char line[128];
    int count = 0;

    while (file != NULL && fgets(line, sizeof(line), file) != NULL)
        count += strchr(line, '\n') != NULL;
    if (file != NULL)
        fclose(file);
    return count;
}

static void check(bool holds, const char *name)
{
    printf("%s %s\n", holds ? "passed" : "FAILED", name);
    failed += !holds;
}

static void test_threads(void)
{
    struct bench benches[2];
    pthread_t threads[2 * THREADS];

    start(&benches[0], "first-of-two");
    start(&benches[1], "second-of-two");
    for (int i = 0; i < 2 * THREADS; i++)
        pthread_create(&threads[i], NULL, call_back, &benches[i % 2]);
    for (int i = 0; i < 2 * THREADS; i++)
        pthread_join(threads[i], NULL);
    for (int i = 0; i < 2; i++) {
        hal_tap_free(benches[i].tap);
        check(count_lines(benches[i].path) == 5 + THREADS * ROUNDS * 3, "a log each, and each line whole");
    }
}

static void test_death(void)
{
    char path[512];
    pid_t child = fork();

    snprintf(path, sizeof(path), "%s/death.log", folder);
    if (child == 0) {
        struct bench bench;

        start(&bench, "death");
        call_back(&bench);
        kill(getpid(), SIGKILL);
    }
    waitpid(child, NULL, 0);
    check(count_lines(path) == 5 + ROUNDS * 3, "no line is lost where the process dies");
}

static void test_refusals(void)
{
    char path[512];

    snprintf(path, sizeof(path), "%s/calls.log", folder);
    check(hal_tap_new(path, 1) == NULL && errno == EEXIST, "a log that stands isn't written over");
    snprintf(path, sizeof(path), "%s/none.log", folder);
    check(hal_tap_new(path, 17) == NULL && errno == EINVAL, "17 partial results are refused");
    check(access(path, F_OK) != 0, "and no log is made");
}

int main(int count, char **words)
{
    if (count != 2) {
        fprintf(stderr, "usage: tap_test FOLDER      an empty one, for the logs\n");
        return 2;
    }
    folder = words[1];
    test_death();
    test_calls();
    test_buffers();
    test_fences();
    test_callbacks();
    test_too_many_streams();
    test_full_disk();
    test_threads();
    test_refusals();
    return failed != 0;
}
