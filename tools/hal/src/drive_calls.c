/* The calls of the driver, but for requests. Each is written by the tap. */
#include "drive.h"

#include <errno.h>
#include <stddef.h>
#include <string.h>

/* What an answer tells of the device. */
static int note_answer(struct drive *drive, int answer)
{
    pthread_mutex_lock(&drive->lock);
    if (answer == -ENODEV)
        drive->dead = true;
    pthread_cond_broadcast(&drive->changed);
    pthread_mutex_unlock(&drive->lock);
    return answer;
}

int drive_open(struct drive *drive)
{
    hw_device_t *device = NULL;
    int answer = hal_tap_open(drive->tap, &drive->stand_in.common, "0", &device);

    if (answer != 0)
        return answer;
    pthread_mutex_lock(&drive->lock);
    drive->device = (camera3_device_t *)device;
    drive->opened = true;
    drive->dead = drive->unready = drive->initialized = drive->has_streams = drive->refused_streams = false;
    memset(drive->settings, 0, sizeof(drive->settings));
    pthread_mutex_unlock(&drive->lock);
    return 0;
}

const char *drive_words_of(int answer)
{
    return strerror(answer < 0 ? -answer : answer);
}

int drive_init(struct drive *drive)
{
    int answer;

    if (drive->device == NULL)
        return DRIVE_NOT_MADE;
    answer = drive->device->ops->initialize(drive->device, &drive->callbacks);
    pthread_mutex_lock(&drive->lock);
    drive->initialized = drive->initialized || answer == 0;
    drive->unready = !drive->initialized;
    pthread_mutex_unlock(&drive->lock);
    return note_answer(drive, answer);
}

int drive_template(struct drive *drive, int template_id)
{
    const camera_metadata_t *settings;

    if (drive->device == NULL)
        return DRIVE_NOT_MADE;
    settings = drive->device->ops->construct_default_request_settings(drive->device, template_id);
    pthread_mutex_lock(&drive->lock);
    if (template_id >= 0 && template_id < DRIVE_TEMPLATES)
        drive->settings[template_id] = settings;
    pthread_mutex_unlock(&drive->lock);
    return settings == NULL ? -ENODEV : 0;
}

static void note_configured(struct drive *drive, const struct drive_asked *asked)
{
    pthread_mutex_lock(&drive->lock);
    drive->has_streams = true;
    for (int i = 0; i < DRIVE_MOST_STREAMS; i++)
        drive->streams[i].configured = false;
    for (int i = 0; i < asked->count; i++)
        drive->streams[asked->streams[i]].configured = true;
    drive->since_settings = 0;
    pthread_mutex_unlock(&drive->lock);
}

static void note_refused(struct drive *drive)
{
    pthread_mutex_lock(&drive->lock);
    drive->refused_streams = true;
    pthread_mutex_unlock(&drive->lock);
}

bool drive_has_failed(struct drive *drive)
{
    bool failed;

    pthread_mutex_lock(&drive->lock);
    failed = drive->dead;
    pthread_mutex_unlock(&drive->lock);
    return failed;
}

int drive_configure(struct drive *drive, const struct drive_asked *asked, uint32_t mode, bool anyway)
{
    camera3_stream_t *streams[DRIVE_MOST_STREAMS];
    camera3_stream_configuration_t configuration = { .num_streams = (uint32_t)asked->count,
                                                     .streams = streams,
                                                     .operation_mode = mode };
    int answer;

    if (drive->device == NULL)
        return DRIVE_NOT_MADE;
    if (!anyway && !drive_drain(drive, DRIVE_PATIENCE_MS)) {
        drive_give_up(drive, "the camera keeps requests, so it can't be configured");
        return DRIVE_NOT_MADE;
    }
    if (!anyway && drive_has_failed(drive))
        return DRIVE_NOT_MADE;
    for (int i = 0; i < asked->count; i++)
        streams[i] = &drive->streams[asked->streams[i]].stream;
    answer = drive->device->ops->configure_streams(drive->device, asked->null ? NULL : &configuration);
    if (answer == 0)
        note_configured(drive, asked);
    else
        note_refused(drive);
    return note_answer(drive, answer);
}

int drive_flush(struct drive *drive)
{
    int answer;

    if (drive->device == NULL || drive->device->ops->flush == NULL)
        return DRIVE_NOT_MADE;
    pthread_mutex_lock(&drive->flushes);
    answer = drive->device->ops->flush(drive->device);
    pthread_mutex_unlock(&drive->flushes);
    return note_answer(drive, answer);
}

void drive_close(struct drive *drive)
{
    if (drive->device == NULL)
        return;
    drive->device->common.close(&drive->device->common);
    pthread_mutex_lock(&drive->lock);
    drive->opened = drive->has_streams = drive->refused_streams = false;
    drive_forget_requests(drive);
    for (int i = 0; i < DRIVE_MOST_STREAMS; i++)
        drive->streams[i].configured = false;
    pthread_mutex_unlock(&drive->lock);
}

bool drive_drain(struct drive *drive, unsigned int ms)
{
    uint64_t until = drive_clock() + (uint64_t)ms * 1000;
    bool drained;

    pthread_mutex_lock(&drive->lock);
    while (drive_is_busy(drive) && !drive->dead && drive_wait(drive, until))
        ;
    drained = !drive_is_busy(drive) || drive->dead;
    pthread_mutex_unlock(&drive->lock);
    if (!drained)
        hal_tap_note(drive->tap, "waited for %u ms, and the camera still has requests", ms);
    return drained;
}

void drive_give_up(struct drive *drive, const char *why)
{
    hal_tap_note(drive->tap, "the script ends here: %s", why);
    pthread_mutex_lock(&drive->lock);
    drive->lost = true;
    pthread_mutex_unlock(&drive->lock);
}
