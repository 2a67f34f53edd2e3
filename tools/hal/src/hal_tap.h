/*
 * hal_tap: records what passes between a framework and a camera device as a hal log (docs/FORMATS.md).
 *
 * A tap is one camera's log. A device that is opened or wrapped through it is used in place of the camera's own: each
 * call and each callback is written as one line, in the order in which they happen, and passed on. Several taps may be
 * used at once, and all calls may be made on any thread.
 *
 * The library is also a camera module by itself (tap_module.c): put in the place of another, it records that.
 */
#ifndef HAL_TAP_H
#define HAL_TAP_H

#include <hardware/hardware.h>

#ifdef __cplusplus
extern "C" {
#endif

#define HAL_TAP_API __attribute__((visibility("default")))

typedef struct hal_tap hal_tap;

/*
 * Makes the log at the path, which must not stand yet, and writes its first line. partial_results is the camera's
 * static android.request.partialResultCount, from 1 to 16; 1 where it has none. NULL, with errno set, where that fails.
 */
HAL_TAP_API hal_tap *hal_tap_new(const char *path, int partial_results);

/*
 * Opens a camera of the module by its methods->open. Writes both lines of the call. On 0, *device is a device of the
 * tap; its close closes the camera's own. On want of memory the camera is closed again, and the answer is -ENOMEM.
 */
HAL_TAP_API int hal_tap_open(hal_tap *tap, const struct hw_module_t *module, const char *id,
                             struct hw_device_t **device);

/* A device of the tap for one that was just opened without it: writes both lines of that open. NULL: no memory. */
HAL_TAP_API struct hw_device_t *hal_tap_wrap(hal_tap *tap, struct hw_device_t *device);

/* Writes a comment, a line that is ignored where the log is judged; at most 200 characters of printable ASCII. */
HAL_TAP_API void hal_tap_note(hal_tap *tap, const char *format, ...) __attribute__((format(printf, 2, 3)));

/* The settings of the next request have a value that no device can know: its line says so, which no number could. */
HAL_TAP_API void hal_tap_mark_bad_settings(hal_tap *tap);

/* The file that the log is written to, for a handler of signals that adds a last comment. */
HAL_TAP_API int hal_tap_file(const hal_tap *tap);

/* Ends the log. No device of the tap may be in use, and the camera must make no callback any more. */
HAL_TAP_API void hal_tap_free(hal_tap *tap);

#ifdef __cplusplus
}
#endif

#endif
