/* The lines of the calls and callbacks that carry lists: configurations, requests, results, messages. */
#include "tap_state.h"

#include <inttypes.h>
#include <system/camera_metadata.h>

/* The line can't be written as the log has it: the log stops, since without the line it would accuse wrongly. */
static void stop(struct hal_tap *tap, const char *cause)
{
    tap_file_stop(&tap->file, cause);
    pthread_mutex_unlock(&tap->lock);
}

static const char *const no_memory = "no memory";

/* ---- configurations */

static void add_format(struct tap_line *line, int format)
{
    switch (format) {
    case HAL_PIXEL_FORMAT_YCbCr_420_888: tap_line_add(line, "YUV"); break;
    case HAL_PIXEL_FORMAT_IMPLEMENTATION_DEFINED: tap_line_add(line, "IMPL"); break;
    case HAL_PIXEL_FORMAT_BLOB: tap_line_add(line, "BLOB"); break;
    case HAL_PIXEL_FORMAT_RAW16: tap_line_add(line, "RAW16"); break;
    default: tap_line_add(line, "H%X", (unsigned int)format); break;
    }
}

/* S:FORMATxWxH[:rD][:in|:bidi] */
static void add_stream(struct tap_line *line, uint32_t number, const camera3_stream_t *stream)
{
    tap_line_add(line, " %" PRIu32 ":", number);
    if (stream == NULL) {
        tap_line_add(line, "H0x0x0");
        return;
    }
    add_format(line, stream->format);
    tap_line_add(line, "x%" PRIu32 "x%" PRIu32, stream->width, stream->height);
    if (stream->rotation != 0)
        tap_line_add(line, ":r%" PRIu32, (uint32_t)stream->rotation * 90);
    if (stream->stream_type == CAMERA3_STREAM_INPUT)
        tap_line_add(line, ":in");
    else if (stream->stream_type == CAMERA3_STREAM_BIDIRECTIONAL)
        tap_line_add(line, ":bidi");
}

static uint32_t count_of_streams(const camera3_stream_configuration_t *configuration)
{
    return configuration->streams == NULL ? 0 : configuration->num_streams;
}

void tap_say_configure(struct hal_tap *tap, const camera3_stream_configuration_t *configuration)
{
    struct tap_line line;
    uint32_t count = count_of_streams(configuration);

    tap_begin(tap);
    if (count > TAP_MOST_PARTS) {
        stop(tap, "a configuration of more than 16 streams");
        return;
    }
    tap_line_start(&line, "configure begin");
    if (configuration->operation_mode != 0)
        tap_line_add(&line, " mode:%" PRIu32, configuration->operation_mode);
    for (uint32_t i = 0; i < count; i++) {
        uint32_t number;

        if (!tap_names_stream(&tap->names, configuration->streams[i], &number)) {
            stop(tap, no_memory);
            return;
        }
        add_stream(&line, number, configuration->streams[i]);
    }
    tap_end(tap, &line);
}

void tap_say_configured(struct hal_tap *tap, const camera3_stream_configuration_t *configuration)
{
    struct tap_line line;
    uint32_t count = count_of_streams(configuration);

    tap_begin(tap);
    tap_line_start(&line, "configure end ok");
    for (uint32_t i = 0; i < count && i < TAP_MOST_PARTS; i++) {
        const camera3_stream_t *stream = configuration->streams[i];
        uint32_t number;

        if (stream != NULL && tap_names_known_stream(&tap->names, stream, &number))
            tap_line_add(&line, " %" PRIu32 ":%" PRIu32, number, stream->max_buffers);
    }
    tap_end(tap, &line);
}

/* ---- requests */

/* S:bB:F; false: no memory. */
static bool add_target(struct hal_tap *tap, struct tap_line *line, uint32_t frame,
                       const camera3_stream_buffer_t *target)
{
    uint32_t stream, buffer;
    int64_t fence;

    if (!tap_names_stream(&tap->names, target->stream, &stream) || !tap_names_target(&tap->names, target, &buffer)
        || !tap_names_acquire(&tap->names, frame, buffer, target->acquire_fence, &fence))
        return false;
    tap_line_add(line, " %" PRIu32 ":b%" PRIu32, stream, buffer);
    if (fence == TAP_NO_FENCE)
        tap_line_add(line, ":-");
    else
        tap_line_add(line, ":%" PRId64, fence);
    return true;
}

void tap_say_request(struct hal_tap *tap, const camera3_capture_request_t *request)
{
    struct tap_line line;
    uint32_t count = request->output_buffers == NULL ? 0 : request->num_output_buffers;
    bool bare = false;

    tap_begin(tap);
    if (count > TAP_MOST_PARTS) {
        stop(tap, "a request for more than 16 buffers");
        return;
    }
    tap_line_start(&line, "request %" PRIu32 " begin %s", request->frame_number,
                   request->settings == NULL ? "same" : "settings");
    for (uint32_t i = 0; i < count; i++) {
        if (!add_target(tap, &line, request->frame_number, &request->output_buffers[i])) {
            stop(tap, no_memory);
            return;
        }
        bare = bare || tap_names_is_bare(&request->output_buffers[i]);
    }
    if (bare)
        tap_line_add(&line, " nohandle");
    if (tap->bad_settings)
        tap_line_add(&line, " badsettings");
    tap->bad_settings = false;
    tap_end(tap, &line);
}

void tap_say_request_end(struct hal_tap *tap, uint32_t frame, int answer)
{
    struct tap_line line;

    tap_begin(tap);
    if (answer == 0)
        tap_line_start(&line, "request %" PRIu32 " end ok", frame);
    else {
        tap_line_start(&line, "request %" PRIu32 " end error %s", frame, tap_name_of_error(answer).text);
        tap_names_forget_frame(&tap->names, frame);
    }
    tap_end(tap, &line);
}

/* ---- results */

static const char *pack_of(const camera_metadata_t *result)
{
    if (result == NULL)
        return "none";
    return get_camera_metadata_entry_count(result) == 0 ? "empty" : "metadata";
}

static const char *status_of(int status)
{
    switch (status) {
    case CAMERA3_BUFFER_STATUS_OK: return "ok";
    case CAMERA3_BUFFER_STATUS_ERROR: return "error";
    default: return "?";
    }
}

/* S:bB:ok|error|?:F[:acquire] */
static void add_returned(struct hal_tap *tap, struct tap_line *line, uint32_t frame,
                         const camera3_stream_buffer_t *returned)
{
    int64_t fence = tap_names_release(&tap->names, frame, returned->release_fence);
    uint32_t stream, buffer;
    bool known = tap_names_known_buffer(&tap->names, returned, &buffer);

    if (tap_names_known_stream(&tap->names, returned->stream, &stream))
        tap_line_add(line, " %" PRIu32, stream);
    else
        tap_line_add(line, " ?");
    if (known)
        tap_line_add(line, ":b%" PRIu32 ":%s", buffer, status_of(returned->status));
    else
        tap_line_add(line, ":b?:%s", status_of(returned->status));
    if (fence >= 0)
        tap_line_add(line, ":%" PRId64, fence);
    else
        tap_line_add(line, fence == TAP_NO_FENCE ? ":-" : ":?");
    if (returned->acquire_fence != -1)
        tap_line_add(line, ":acquire");
    if (known)
        tap_names_forget_buffer(&tap->names, frame, buffer);
}

void tap_say_result(struct hal_tap *tap, const camera3_capture_result_t *result)
{
    struct tap_line line;
    uint32_t count = result->output_buffers == NULL ? 0 : result->num_output_buffers;

    tap_begin(tap);
    if (count > TAP_MOST_PARTS) {
        stop(tap, "a result with more than 16 buffers");
        return;
    }
    tap_line_start(&line, "result %" PRIu32 " partial %" PRIu32 " %s", result->frame_number, result->partial_result,
                   pack_of(result->result));
    for (uint32_t i = 0; i < count; i++)
        add_returned(tap, &line, result->frame_number, &result->output_buffers[i]);
    if (result->input_buffer != NULL)
        tap_line_add(&line, " input");
    tap_end(tap, &line);
}

/* ---- messages */

static void add_error(struct hal_tap *tap, struct tap_line *line, const camera3_error_msg_t *error)
{
    uint32_t stream;

    switch (error->error_code) {
    case CAMERA3_MSG_ERROR_DEVICE: tap_line_start(line, "error device"); break;
    case CAMERA3_MSG_ERROR_REQUEST: tap_line_start(line, "error %" PRIu32 " request", error->frame_number); break;
    case CAMERA3_MSG_ERROR_RESULT: tap_line_start(line, "error %" PRIu32 " result", error->frame_number); break;
    case CAMERA3_MSG_ERROR_BUFFER:
        tap_line_start(line, "error %" PRIu32 " buffer:", error->frame_number);
        if (tap_names_known_stream(&tap->names, error->error_stream, &stream))
            tap_line_add(line, "%" PRIu32, stream);
        else
            tap_line_add(line, "?");
        break;
    default: tap_line_start(line, "# an error of code %d, which the header doesn't have", error->error_code); break;
    }
}

void tap_say_notify(struct hal_tap *tap, const camera3_notify_msg_t *message)
{
    struct tap_line line;

    tap_begin(tap);
    if (message->type == CAMERA3_MSG_SHUTTER)
        tap_line_start(&line, "shutter %" PRIu32 " %" PRIu64, message->message.shutter.frame_number,
                       message->message.shutter.timestamp);
    else if (message->type == CAMERA3_MSG_ERROR)
        add_error(tap, &line, &message->message.error);
    else
        tap_line_start(&line, "# a message of type %d, which the header doesn't have", message->type);
    tap_end(tap, &line);
}
