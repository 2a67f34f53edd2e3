/*
 * Measures what the tap adds to a callback and to a call: a device that does nothing, with the tap and without it. Ends
 * with 1 where the median of a callback is 20 microseconds or more.
 */
#include "hal_tap.h"

#include <hardware/camera3.h>
#include <stdio.h>
#include <stdlib.h>
#include <string.h>
#include <sys/eventfd.h>
#include <time.h>
#include <unistd.h>

#define ROUNDS 20000
#define MOST_MICROSECONDS 20 /* what a callback may cost */

/* A device and a framework that do nothing. */
struct idle {
    camera3_device_t device;
    const camera3_callback_ops_t *callbacks;
    unsigned long calls;
};

struct idle_framework {
    camera3_callback_ops_t callbacks;
    unsigned long count;
};

static int initialize(const struct camera3_device *device, const camera3_callback_ops_t *callbacks)
{
    ((struct idle *)device)->callbacks = callbacks;
    return 0;
}

static int process_capture_request(const struct camera3_device *device, camera3_capture_request_t *request)
{
    ((struct idle *)device)->calls += request->frame_number != 0;
    return 0;
}

static int close_idle(struct hw_device_t *device)
{
    (void)device;
    return 0;
}

static void on_result(const struct camera3_callback_ops *callbacks, const camera3_capture_result_t *result)
{
    ((struct idle_framework *)callbacks)->count += result->num_output_buffers;
}

static void on_notify(const struct camera3_callback_ops *callbacks, const camera3_notify_msg_t *message)
{
    ((struct idle_framework *)callbacks)->count += message->type != 0;
}

static camera3_device_ops_t ops = { .initialize = initialize, .process_capture_request = process_capture_request };

static double microseconds(void)
{
    struct timespec time;

    clock_gettime(CLOCK_MONOTONIC, &time);
    return (double)time.tv_sec * 1e6 + (double)time.tv_nsec / 1e3;
}

enum { SHUTTER, RESULT, REQUEST, KINDS };

/* Of each kind of call, how long each took. */
struct times {
    double of[KINDS][ROUNDS];
};

static double since(double start)
{
    return microseconds() - start;
}

/* One buffer with an acquire fence that comes back as its release fence: the dearest case, since fences are compared.
 */
static void run(struct idle *idle, camera3_device_t *device, struct idle_framework *framework, struct times *times)
{
    native_handle_t native = { .version = sizeof(native), .numFds = 0, .numInts = 0 };
    buffer_handle_t handle = &native;
    camera3_stream_t stream = { .width = 640, .height = 480 };
    camera3_stream_buffer_t buffer = { .stream = &stream, .buffer = &handle };
    int fence = eventfd(0, EFD_CLOEXEC);

    device->ops->initialize(device, &framework->callbacks);
    for (uint32_t i = 0; i < ROUNDS; i++) {
        camera3_capture_request_t request = { .frame_number = i, .num_output_buffers = 1, .output_buffers = &buffer };
        camera3_notify_msg_t shutter = { .type = CAMERA3_MSG_SHUTTER };
        camera3_capture_result_t result = { .frame_number = i, .num_output_buffers = 1, .output_buffers = &buffer };
        double start = microseconds();

        buffer.acquire_fence = fence;
        buffer.release_fence = -1;
        device->ops->process_capture_request(device, &request);
        times->of[REQUEST][i] = since(start);
        shutter.message.shutter.frame_number = i;
        start = microseconds();
        idle->callbacks->notify(idle->callbacks, &shutter);
        times->of[SHUTTER][i] = since(start);
        buffer.acquire_fence = -1;
        buffer.release_fence = fence;
        start = microseconds();
        idle->callbacks->process_capture_result(idle->callbacks, &result);
        times->of[RESULT][i] = since(start);
    }
    close(fence);
}

static int compare(const void *one, const void *other)
{
    double first = *(const double *)one, second = *(const double *)other;

    return (first > second) - (first < second);
}

/* The median, and what 99 of 100 stay below. */
static void print_cost(const char *name, double *plain, double *tapped)
{
    qsort(plain, ROUNDS, sizeof(*plain), compare);
    qsort(tapped, ROUNDS, sizeof(*tapped), compare);
    printf("  %-34s %8.2f %8.2f\n", name, tapped[ROUNDS / 2] - plain[ROUNDS / 2],
           tapped[ROUNDS / 100 * 99] - plain[ROUNDS / 100 * 99]);
}

int main(int count, char **words)
{
    struct idle idle = { .device = { .common = { .tag = HARDWARE_DEVICE_TAG, .close = close_idle }, .ops = &ops } };
    struct idle_framework framework = { .callbacks = { .process_capture_result = on_result, .notify = on_notify } };
    static struct times plain, tapped;
    hal_tap *tap;
    struct hw_device_t *device;

    if (count != 2) {
        fprintf(stderr, "usage: tap_cost LOG      the log mustn't stand yet; it is left\n");
        return 2;
    }
    tap = hal_tap_new(words[1], 1);
    device = tap == NULL ? NULL : hal_tap_wrap(tap, &idle.device.common);
    if (device == NULL) {
        perror(words[1]);
        return 1;
    }
    run(&idle, &idle.device, &framework, &plain);
    run(&idle, (camera3_device_t *)device, &framework, &tapped);
    printf("microseconds that the tap adds, of %d each:           median  99 of 100\n", ROUNDS);
    print_cost("a shutter", plain.of[SHUTTER], tapped.of[SHUTTER]);
    print_cost("a result with a buffer and a fence", plain.of[RESULT], tapped.of[RESULT]);
    print_cost("a request, both lines", plain.of[REQUEST], tapped.of[REQUEST]);
    hal_tap_free(tap);
    return tapped.of[RESULT][ROUNDS / 2] - plain.of[RESULT][ROUNDS / 2] < MOST_MICROSECONDS ? 0 : 1;
}
