/* The camera is opened and closed: the proved device with its faults, the lock, the threads. */
#include "reference_camera.h"

#include <errno.h>
#include <string.h>
#include <sys/eventfd.h>
#include <time.h>
#include <unistd.h>

struct reference_camera *reference_camera_of(const struct camera3_device *device)
{
    return (struct reference_camera *)device; /* it is the first member */
}

uint64_t reference_clock(void)
{
    struct timespec time;

    clock_gettime(CLOCK_MONOTONIC, &time);
    return (uint64_t)time.tv_sec * 1000000000 + (uint64_t)time.tv_nsec;
}

void reference_tell_changed(struct reference_camera *camera)
{
    uint64_t one = 1;

    pthread_cond_broadcast(&camera->changed);
    if (camera->polling)
        (void)!write(camera->wake, &one, sizeof(one));
}

void reference_wait(struct reference_camera *camera, uint64_t until)
{
    struct timespec time = { (time_t)(until / 1000000000), (long)(until % 1000000000) };

    if (until == 0)
        pthread_cond_wait(&camera->changed, &camera->lock);
    else
        pthread_cond_timedwait(&camera->changed, &camera->lock, &time);
}

/* ---- opening */

void reference_prepare(struct reference_camera *camera)
{
    pthread_condattr_t clock;

    pthread_mutex_init(&camera->lock, NULL);
    pthread_condattr_init(&clock);
    pthread_condattr_setclock(&clock, CLOCK_MONOTONIC);
    pthread_cond_init(&camera->changed, &clock);
    pthread_condattr_destroy(&clock);
}

static void fill_device(struct reference_camera *camera, const hw_module_t *module)
{
    camera->device = (camera3_device_t){ .ops = &reference_ops };
    camera->device.common.tag = HARDWARE_DEVICE_TAG;
    camera->device.common.version = CAMERA_DEVICE_API_VERSION_3_3;
    camera->device.common.module = (hw_module_t *)module;
    camera->device.common.close = reference_close;
}

/* What a camera that was open before may have left. */
static void forget(struct reference_camera *camera)
{
    camera->closing = camera->stopping = camera->telling = camera->polling = false;
    camera->callbacks = NULL;
    camera->stream_count = 0;
    camera->next_exposure = 0;
    memset(camera->buffers, 0, sizeof(camera->buffers));
    memset(camera->has_template, 0, sizeof(camera->has_template));
}

static int open_proved(struct reference_camera *camera)
{
    static const struct pauvigre_profile profile = { REFERENCE_DEPTH, REFERENCE_RAW, REFERENCE_YUV };

    return pauvigre_open(&camera->proved, &profile, camera->options.faults, camera->options.fault_count);
}

/* Stops those of the threads that run. */
static void stop_threads(struct reference_camera *camera, int count)
{
    pthread_mutex_lock(&camera->lock);
    camera->stopping = true;
    reference_tell_changed(camera);
    pthread_mutex_unlock(&camera->lock);
    if (count > 0)
        pthread_join(camera->steps, NULL);
    if (count > 1)
        pthread_join(camera->fills, NULL);
}

static int start_threads(struct reference_camera *camera)
{
    if (pthread_create(&camera->steps, NULL, reference_make_steps, camera) != 0)
        return -ENOMEM;
    if (pthread_create(&camera->fills, NULL, reference_fill_buffers, camera) != 0) {
        stop_threads(camera, 1);
        return -ENOMEM;
    }
    return 0;
}

/* No thread of ours runs. */
static void end(struct reference_camera *camera)
{
    pthread_mutex_lock(&camera->lock);
    pauvigre_close(&camera->proved);
    camera->opened = false;
    pthread_mutex_unlock(&camera->lock);
}

/* What stands beside the proved device, which is open. */
static int open_rest(struct reference_camera *camera)
{
    int answer;

    camera->wake = eventfd(0, EFD_CLOEXEC | EFD_NONBLOCK);
    if (camera->wake < 0)
        return -errno;
    answer = start_threads(camera);
    if (answer != 0)
        close(camera->wake);
    return answer;
}

int reference_open(struct reference_camera *camera, const hw_module_t *module)
{
    struct reference_options options;
    int answer = -EBUSY;

    if (!reference_read_options(&options))
        return -EINVAL;
    pthread_mutex_lock(&camera->lock);
    if (!camera->opened) {
        fill_device(camera, module);
        forget(camera);
        camera->options = options;
        answer = open_proved(camera);
        camera->opened = answer == 0;
    }
    pthread_mutex_unlock(&camera->lock);
    if (answer != 0)
        return answer;
    answer = open_rest(camera);
    if (answer != 0)
        end(camera);
    return answer;
}

/* ---- closing */

static bool has_frames(struct reference_camera *camera)
{
    struct pauvigre_row row;

    return pauvigre_row_at(&camera->proved, 0, &row) == 0;
}

/* Returns when all that the device had is back, and told. A device that isn't open, or closes already, stays so. */
int reference_close(struct hw_device_t *device)
{
    struct reference_camera *camera = reference_camera_of((const struct camera3_device *)device);
    int answer;

    pthread_mutex_lock(&camera->lock);
    answer = camera->closing ? -ENODEV : pauvigre_begin_close(&camera->proved);
    if (answer == 0) {
        camera->closing = true;
        reference_tell_changed(camera);
        while (camera->telling || has_frames(camera))
            reference_wait(camera, 0);
    }
    pthread_mutex_unlock(&camera->lock);
    if (answer != 0)
        return answer;
    stop_threads(camera, 2);
    close(camera->wake);
    end(camera);
    return 0;
}
