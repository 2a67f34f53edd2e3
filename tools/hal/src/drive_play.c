/* Plays the commands of a script, some of them on threads of their own. */
#include "drive.h"

#include <hardware/gralloc.h>
#include <stdlib.h>
#include <system/camera_metadata.h>

struct drive_later {
    pthread_t thread;
    struct drive *drive;
    const struct drive_command *command;
    struct drive_later *next;
};

static bool is_lost(struct drive *drive)
{
    bool lost;

    pthread_mutex_lock(&drive->lock);
    lost = drive->lost;
    pthread_mutex_unlock(&drive->lock);
    return lost;
}

/* ---- single commands */

/* A size that the camera says it has for outputs of a format. */
static bool is_size_of(const int32_t *size, int format)
{
    return size[0] == format && size[3] == ANDROID_SCALER_AVAILABLE_STREAM_CONFIGURATIONS_OUTPUT;
}

/* Gives the stream the camera's size of the format that is closest to so many pixels. False: it names none. */
static bool take_closest(const struct drive *drive, int format, int64_t pixels, camera3_stream_t *stream)
{
    camera_metadata_ro_entry_t entry = { .count = 0 };
    int64_t least = INT64_MAX;

    if (drive->characteristics == NULL
        || find_camera_metadata_ro_entry(drive->characteristics, ANDROID_SCALER_AVAILABLE_STREAM_CONFIGURATIONS, &entry)
               != 0)
        return false;
    for (size_t i = 0; i + 3 < entry.count; i += 4) {
        const int32_t *size = &entry.data.i32[i];
        int64_t between = llabs((int64_t)size[1] * size[2] - pixels);

        if (!is_size_of(size, format) || between >= least)
            continue;
        least = between;
        stream->format = format;
        stream->width = (uint32_t)size[1];
        stream->height = (uint32_t)size[2];
    }
    return least != INT64_MAX;
}

/* A format of the framework's own, which each camera of a phone has. */
static bool is_usual(int format)
{
    return format == HAL_PIXEL_FORMAT_YCbCr_420_888 || format == HAL_PIXEL_FORMAT_IMPLEMENTATION_DEFINED
           || format == HAL_PIXEL_FORMAT_BLOB || format == HAL_PIXEL_FORMAT_RAW16;
}

/* An output becomes what the camera says that it has: the closest size of the format, or of YUV where it lacks that. */
static void fit(const struct drive *drive, camera3_stream_t *stream)
{
    int64_t pixels = (int64_t)stream->width * stream->height;

    if (stream->stream_type != CAMERA3_STREAM_OUTPUT || !is_usual(stream->format))
        return;
    if (!take_closest(drive, stream->format, pixels, stream))
        take_closest(drive, HAL_PIXEL_FORMAT_YCbCr_420_888, pixels, stream);
}

/* The largest size that the camera has of the format; 640x480 where it names none. */
static void take_largest(const struct drive *drive, camera3_stream_t *stream)
{
    stream->width = 640;
    stream->height = 480;
    take_closest(drive, stream->format, INT64_MAX / 2, stream);
}

static void define_stream(struct drive *drive, const struct drive_command *command)
{
    struct drive_stream *stream = &drive->streams[command->number];
    camera3_stream_t wanted = command->stream, fitting;

    wanted.usage = GRALLOC_USAGE_SW_READ_OFTEN;
    if (command->largest)
        take_largest(drive, &wanted);
    fitting = wanted;
    fit(drive, &fitting);
    if (fitting.format != wanted.format || fitting.width != wanted.width || fitting.height != wanted.height)
        hal_tap_note(drive->tap, "stream %d is another one: the camera doesn't have %ux%u of its format",
                     command->number, wanted.width, wanted.height);
    pthread_mutex_lock(&drive->lock);
    stream->defined = true;
    stream->stream = fitting;
    pthread_mutex_unlock(&drive->lock);
}

/* At most one comment of a burst: the first request that the camera doesn't take. */
static void play_requests(struct drive *drive, const struct drive_command *command)
{
    bool told = false;

    for (int i = 0; i < command->number && !is_lost(drive) && !drive_has_failed(drive); i++) {
        const char *why;

        if (!drive_request(drive, &command->asked, &why)) {
            why = "no buffer is free: the camera keeps them, or has none that the script asks for";
            drive_give_up(drive, why);
        }
        if (why != NULL && !told)
            drive_note_step(drive, command, why);
        told = told || why != NULL;
        if (command->gap_ms != 0)
            drive_sleep((unsigned int)command->gap_ms);
    }
}

static void set_environment(struct drive *drive, const struct drive_command *command)
{
    if (drive->no_env)
        return;
    setenv(command->name, command->text, 1);
    hal_tap_note(drive->tap, "env %s %s", command->name, command->text);
}

void drive_note_step(struct drive *drive, const struct drive_command *command, const char *why)
{
    hal_tap_note(drive->tap, "not possible: line %d, %s: %s", command->line, command->source, why);
}

/* The command is a call of the device, other than open and close. */
static bool is_call(const struct drive_command *command)
{
    switch (command->kind) {
    case DRIVE_INIT:
    case DRIVE_TEMPLATE:
    case DRIVE_CONFIGURE:
    case DRIVE_REQUEST:
    case DRIVE_FLUSH: return true;
    default: return false;
    }
}

/* Why a correct framework doesn't make the call; NULL where it may. Of a device that isn't initialized it only closes; to
 * one that told of its failure it sends and configures nothing any more. */
static const char *reason_against(struct drive *drive, const struct drive_command *command)
{
    const char *why = NULL;

    if (!is_call(command))
        return NULL;
    pthread_mutex_lock(&drive->lock);
    if (drive->device == NULL)
        why = "no camera is open";
    else if (drive->unready)
        why = "the camera isn't initialized";
    else if (drive->dead && (command->kind == DRIVE_REQUEST || command->kind == DRIVE_CONFIGURE))
        why = "the camera failed";
    pthread_mutex_unlock(&drive->lock);
    return why;
}

/* What the camera answered to the call. */
static int make_call(struct drive *drive, const struct drive_command *command)
{
    switch (command->kind) {
    case DRIVE_OPEN: return drive_open(drive);
    case DRIVE_INIT: return drive_init(drive);
    case DRIVE_TEMPLATE: return drive_template(drive, command->number);
    case DRIVE_CONFIGURE: return drive_configure(drive, &command->asked, command->mode, command->anyway);
    default: return drive_flush(drive);
    }
}

static void play_call(struct drive *drive, const struct drive_command *command)
{
    int answer = make_call(drive, command);

    if (answer == DRIVE_NOT_MADE)
        drive_note_step(drive, command, "the camera doesn't let it be asked");
    else if (command->kind == DRIVE_TEMPLATE && answer != 0)
        drive_note_step(drive, command, "the camera gives none");
    else if (answer != 0)
        drive_note_step(drive, command, drive_words_of(answer));
}

static void play_command(struct drive *drive, const struct drive_command *command)
{
    const char *why = reason_against(drive, command);

    if (why != NULL) {
        drive_note_step(drive, command, why);
        return;
    }
    switch (command->kind) {
    case DRIVE_ENV: set_environment(drive, command); break;
    case DRIVE_NOTE: hal_tap_note(drive->tap, "%s", command->text); break;
    case DRIVE_STREAM: define_stream(drive, command); break;
    case DRIVE_USE: drive->template_id = command->number; break;
    case DRIVE_REQUEST: play_requests(drive, command); break;
    case DRIVE_SLEEP: drive_sleep((unsigned int)command->number); break;
    case DRIVE_DRAIN:
        if (!drive_drain(drive, (unsigned int)command->number))
            drive_note_step(drive, command, "the camera still has requests");
        break;
    case DRIVE_CLOSE: drive_close(drive); break;
    case DRIVE_JOIN: break;
    default: play_call(drive, command); break;
    }
}

/* ---- threads */

static void *play_later(void *argument)
{
    struct drive_later *later = argument;

    drive_sleep((unsigned int)later->command->later_ms);
    play_command(later->drive, later->command);
    return NULL;
}

static void start_later(struct drive *drive, const struct drive_command *command)
{
    struct drive_later *later = calloc(1, sizeof(*later));

    if (later == NULL)
        return;
    later->drive = drive;
    later->command = command;
    if (pthread_create(&later->thread, NULL, play_later, later) != 0) {
        free(later);
        return;
    }
    later->next = drive->laters;
    drive->laters = later;
}

static void join(struct drive *drive)
{
    while (drive->laters != NULL) {
        struct drive_later *later = drive->laters;

        drive->laters = later->next;
        pthread_join(later->thread, NULL);
        free(later);
    }
}

/* ---- a script */

/* A correct framework makes no other call while it closes. */
static bool joins_before(const struct drive_command *command)
{
    return command->kind == DRIVE_JOIN || (command->kind == DRIVE_CLOSE && !command->anyway);
}

bool drive_play(struct drive *drive, const struct drive_command *script)
{
    bool whole;

    for (const struct drive_command *command = script; command != NULL && !is_lost(drive); command = command->next) {
        if (joins_before(command))
            join(drive);
        if (command->later_ms >= 0)
            start_later(drive, command);
        else
            play_command(drive, command);
    }
    join(drive);
    whole = !is_lost(drive);
    if (!whole && drive->opened)
        drive_close(drive);
    return whole;
}

void drive_set_environment(const struct drive_command *script)
{
    for (const struct drive_command *command = script; command != NULL && command->kind == DRIVE_ENV;
         command = command->next)
        setenv(command->name, command->text, 1);
}
