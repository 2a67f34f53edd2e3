/* Requests: which buffers, fences, settings and number they have, and what is done when one is refused. */
#include "drive.h"

#include <errno.h>
#include <stdlib.h>
#include <sys/syscall.h>
#include <system/camera_metadata.h>
#include <unistd.h>

#define COMPARE_FILES 0 /* of kcmp: open files */
#define SETTINGS_EACH 5 /* requests with one settings pack */
#define UNKNOWN_TEST_PATTERN 99

/* ---- buffers; with the lock taken */

static struct drive_buffer *new_buffer(struct drive *drive, int stream)
{
    struct drive_buffer *buffer;

    if (drive->buffer_count == DRIVE_MOST_BUFFERS)
        return NULL;
    buffer = &drive->buffers[drive->buffer_count];
    buffer->handle = buffer_file_new(drive_picture_size(drive, &drive->streams[stream].stream));
    if (buffer->handle == NULL)
        return NULL;
    buffer->stream = stream;
    buffer->release = buffer->signaller = -1;
    drive->buffer_count++;
    return buffer;
}

/* Its release fence, if it has one, is signalled. */
static bool is_ready(struct drive_buffer *buffer)
{
    if (buffer->release >= 0) {
        if (!drive_is_signalled(buffer->release))
            return false;
        close(buffer->release);
        buffer->release = -1;
    }
    return true;
}

/* How many the camera may have of the stream. Where it doesn't say, few. */
static int limit_of(const struct drive *drive, int stream)
{
    uint32_t most = drive->streams[stream].stream.max_buffers;

    return most == 0 || most > 16 ? 4 : (int)most;
}

/* The one that wasn't used for the longest time, or a new one; NULL where the camera has as many as it may have. */
static struct drive_buffer *free_buffer(struct drive *drive, int stream, bool over)
{
    struct drive_buffer *best = NULL;
    int count = 0, held = 0;

    for (int i = 0; i < drive->buffer_count; i++) {
        struct drive_buffer *buffer = &drive->buffers[i];

        if (buffer->stream != stream)
            continue;
        count++;
        held += buffer->held;
        if (!buffer->held && is_ready(buffer) && (best == NULL || buffer->used < best->used))
            best = buffer;
    }
    if (held >= limit_of(drive, stream) && !over)
        return NULL;
    return best == NULL || count <= limit_of(drive, stream) ? new_buffer(drive, stream) : best;
}

/* A buffer of the stream that the camera has. */
static struct drive_buffer *held_buffer(struct drive *drive, int stream)
{
    for (int i = 0; i < drive->buffer_count; i++)
        if (drive->buffers[i].stream == stream && drive->buffers[i].held)
            return &drive->buffers[i];
    return NULL;
}

/* Takes a buffer for the frame; waits until there is one. NULL: there is none for too long, or the camera failed. */
static struct drive_buffer *take_buffer(struct drive *drive, const struct drive_asked *asked, int stream,
                                        uint32_t frame)
{
    uint64_t until = drive_clock() + DRIVE_PATIENCE_MS * 1000;
    struct drive_buffer *buffer;

    if (asked->held)
        return held_buffer(drive, stream);
    while ((buffer = free_buffer(drive, stream, asked->over)) == NULL) {
        uint64_t soon = drive_clock() + 2000; /* a release fence may be signalled without a callback */

        if (drive->dead || drive_clock() >= until)
            return NULL;
        drive_wait(drive, soon);
    }
    buffer->held = true;
    buffer->frame = frame;
    buffer->used = ++drive->uses;
    return buffer;
}

/* ---- a request */

struct made {
    camera3_capture_request_t request;
    camera3_stream_buffer_t targets[DRIVE_MOST_TARGETS];
    struct drive_buffer *buffers[DRIVE_MOST_TARGETS];
    camera_metadata_t *bad_settings;
    struct drive_request *booked;
};

static bool take_buffers(struct drive *drive, const struct drive_asked *asked, struct made *made)
{
    for (int i = 0; i < asked->count; i++) {
        struct drive_buffer *buffer = take_buffer(drive, asked, asked->streams[i], made->request.frame_number);

        if (buffer == NULL) {
            for (int k = 0; k < i && !asked->held; k++)
                made->buffers[k]->held = false;
            return false;
        }
        made->buffers[i] = buffer;
        made->targets[i] = (camera3_stream_buffer_t){
            .stream = &drive->streams[asked->streams[i]].stream,
            .buffer = asked->no_handle ? &drive->null_handle : &buffer->handle,
            .status = CAMERA3_BUFFER_STATUS_OK,
            .acquire_fence = asked->held ? -1 : drive_fence_new(drive, buffer, asked->fence_ms),
            .release_fence = -1,
        };
    }
    return true;
}

/* Settings that no camera can know. */
static camera_metadata_t *worse(const camera_metadata_t *settings)
{
    camera_metadata_t *bad = allocate_camera_metadata(get_camera_metadata_entry_count(settings) + 1,
                                                      get_camera_metadata_data_count(settings) + 64);
    int32_t pattern = UNKNOWN_TEST_PATTERN;

    if (bad == NULL)
        return NULL;
    append_camera_metadata(bad, settings);
    if (delete_camera_metadata_entry(bad, 0) != 0)
        return bad;
    add_camera_metadata_entry(bad, ANDROID_SENSOR_TEST_PATTERN_MODE, &pattern, 1);
    return bad;
}

static const camera_metadata_t *settings_of(struct drive *drive, const struct drive_asked *asked, struct made *made)
{
    const camera_metadata_t *settings = drive->settings[drive->template_id];
    bool due = drive->since_settings % SETTINGS_EACH == 0;

    if (asked->settings == DRIVE_SAME || (asked->settings == DRIVE_AS_DUE && !due && !asked->bad_settings))
        return NULL;
    if (settings == NULL)
        settings = drive->own_settings;
    if (!asked->bad_settings)
        return settings;
    made->bad_settings = worse(settings);
    return made->bad_settings;
}

/* Puts the request together; with the lock taken. False: a buffer or memory is missing. */
static bool make(struct drive *drive, const struct drive_asked *asked, struct made *made)
{
    made->request.frame_number = asked->has_frame ? asked->frame : drive->next_frame++;
    if (!take_buffers(drive, asked, made))
        return false;
    made->request.num_output_buffers = (uint32_t)asked->count;
    made->request.output_buffers = asked->count == 0 ? NULL : made->targets;
    made->request.settings = settings_of(drive, asked, made);
    made->booked = drive_book(drive, &made->request, made->buffers);
    if (made->booked == NULL)
        return false;
    if (made->bad_settings != NULL)
        hal_tap_mark_bad_settings(drive->tap);
    return true;
}

/* The fences of a refused request are the framework's again. */
static void take_back_fences(struct drive *drive, const struct made *made)
{
    for (uint32_t i = 0; i < made->request.num_output_buffers; i++) {
        int fence = made->targets[i].acquire_fence;

        if (fence < 0)
            continue;
        if (syscall(SYS_kcmp, getpid(), getpid(), COMPARE_FILES, fence, made->buffers[i]->signaller) == 0)
            close(fence);
        else
            hal_tap_note(drive->tap, "request %u was refused, but its acquire fence is closed",
                         made->request.frame_number);
    }
}

static void note_request(struct drive *drive, const struct made *made, int answer, const char **why)
{
    if (answer != 0) {
        *why = drive_words_of(answer);
        take_back_fences(drive, made);
    }
    pthread_mutex_lock(&drive->lock);
    if (answer == 0) {
        drive_book_accepted(drive, made->booked);
        drive->since_settings++;
    } else
        drive_book_refused(drive, made->booked);
    if (answer == -ENODEV)
        drive->dead = true;
    pthread_cond_broadcast(&drive->changed);
    pthread_mutex_unlock(&drive->lock);
}

/* Why no buffers can be found for the request, whatever the camera gives back; NULL where there is no such reason. */
static const char *reason_against_buffers(struct drive *drive, const struct drive_asked *asked)
{
    for (int i = 0; i < asked->count; i++) {
        int same = 0;

        for (int k = 0; k < asked->count; k++)
            same += asked->streams[k] == asked->streams[i];
        if (asked->held && held_buffer(drive, asked->streams[i]) == NULL)
            return "the camera has no buffer of the stream";
        if (!asked->held && !asked->over && same > limit_of(drive, asked->streams[i]))
            return "the camera takes fewer buffers of the stream";
    }
    return NULL;
}

/* Why the request isn't made; NULL where it is. A script that breaks a rule by a word breaks that one alone: it needs a
 * configuration too, unless none was asked for before. */
static const char *reason_against(struct drive *drive, const struct drive_asked *asked)
{
    const char *why = NULL;

    pthread_mutex_lock(&drive->lock);
    if (asked->count == 0 || asked->anyway) {
        if (!drive->has_streams && drive->refused_streams)
            why = "no configuration stands";
    } else
        for (int i = 0; i < asked->count; i++)
            if (!drive->streams[asked->streams[i]].configured)
                why = "the camera didn't configure its streams";
    if (why == NULL)
        why = reason_against_buffers(drive, asked);
    pthread_mutex_unlock(&drive->lock);
    return why;
}

bool drive_request(struct drive *drive, const struct drive_asked *asked, const char **why)
{
    struct made made = { .bad_settings = NULL };
    bool ready, failed;

    *why = NULL;
    if (asked->null) {
        drive->device->ops->process_capture_request(drive->device, NULL);
        return true;
    }
    *why = reason_against(drive, asked);
    if (*why != NULL)
        return true;
    pthread_mutex_lock(&drive->lock);
    ready = make(drive, asked, &made);
    failed = drive->dead;
    pthread_mutex_unlock(&drive->lock);
    if (ready)
        note_request(drive, &made, drive->device->ops->process_capture_request(drive->device, &made.request), why);
    if (made.bad_settings != NULL)
        free_camera_metadata(made.bad_settings);
    return ready || failed; /* of a camera that failed nothing is asked any more */
}
