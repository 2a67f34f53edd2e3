/* A tap from within: one camera's log, and its devices. */
#ifndef TAP_STATE_H
#define TAP_STATE_H

#include "hal_tap.h"
#include "tap_file.h"
#include "tap_line.h"
#include "tap_names.h"

#include <hardware/camera3.h>
#include <pthread.h>

/* What a line of the log can hold of a list. */
#define TAP_MOST_PARTS 16

struct hal_tap {
    pthread_mutex_t lock; /* of all that follows; never held while the device or the framework is entered */
    struct tap_file file;
    struct tap_names names;
    bool bad_settings; /* of the next request */
    struct tap_device *devices;
};

/* A device of the tap, in the place of the camera's own. It stays until the tap ends: callbacks may come after a close.
 */
struct tap_device {
    camera3_device_t device; /* what the framework is given */
    camera3_device_ops_t ops;
    camera3_callback_ops_t callbacks; /* what the camera is given */
    camera3_device_t *camera;
    const camera3_callback_ops_t *framework;
    struct hal_tap *tap;
    struct tap_device *next;
};

/* One line, with the lock taken: tap_begin, then tap_line_add, then tap_end. */
void tap_begin(struct hal_tap *tap);
void tap_end(struct hal_tap *tap, struct tap_line *line);

/* Writes a whole line; as a comment, where it begins with `#`. */
void tap_say(struct hal_tap *tap, const char *format, ...) __attribute__((format(printf, 2, 3)));

/* `WHAT end ok` or `WHAT end error E`. */
void tap_say_end(struct hal_tap *tap, const char *what, int answer);

/* The name of an error as the log has it: EINVAL, E123. */
struct tap_error_name {
    char text[16];
};
struct tap_error_name tap_name_of_error(int error);

/* The lines of the calls and callbacks with lists (tap_words.c). Each takes the lock. */
void tap_say_configure(struct hal_tap *tap, const camera3_stream_configuration_t *configuration);
void tap_say_configured(struct hal_tap *tap, const camera3_stream_configuration_t *configuration);
void tap_say_request(struct hal_tap *tap, const camera3_capture_request_t *request);
void tap_say_request_end(struct hal_tap *tap, uint32_t frame, int answer);
void tap_say_result(struct hal_tap *tap, const camera3_capture_result_t *result);
void tap_say_notify(struct hal_tap *tap, const camera3_notify_msg_t *message);

/* The ops of a device of the tap, and its callbacks (tap_ops.c). */
void tap_fill_ops(struct tap_device *device);

#endif
