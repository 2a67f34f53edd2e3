/* The tap itself: makes and ends a log, opens and wraps devices. What it promises stands in hal_tap.h. */
#include "tap_state.h"

#include <errno.h>
#include <stdarg.h>
#include <stdio.h>
#include <stdlib.h>
#include <string.h>

/* ---- lines */

void tap_begin(struct hal_tap *tap)
{
    pthread_mutex_lock(&tap->lock);
}

void tap_end(struct hal_tap *tap, struct tap_line *line)
{
    tap_file_write(&tap->file, line);
    pthread_mutex_unlock(&tap->lock);
}

void tap_say(struct hal_tap *tap, const char *format, ...)
{
    struct tap_line line;
    char text[1024];
    va_list values;

    va_start(values, format);
    vsnprintf(text, sizeof(text), format, values);
    va_end(values);
    tap_begin(tap);
    tap_line_start(&line, "%s", text);
    tap_end(tap, &line);
}

struct tap_error_name tap_name_of_error(int error)
{
    static const struct {
        int error;
        const char *name;
    } known[] = {
        { EPERM, "EPERM" },       { ENOENT, "ENOENT" },       { EINTR, "EINTR" },           { EIO, "EIO" },
        { ENXIO, "ENXIO" },       { EAGAIN, "EAGAIN" },       { ENOMEM, "ENOMEM" },         { EACCES, "EACCES" },
        { EFAULT, "EFAULT" },     { EBUSY, "EBUSY" },         { EEXIST, "EEXIST" },         { ENODEV, "ENODEV" },
        { EINVAL, "EINVAL" },     { EMFILE, "EMFILE" },       { ENOSPC, "ENOSPC" },         { EPIPE, "EPIPE" },
        { EDOM, "EDOM" },         { ERANGE, "ERANGE" },       { ENOSYS, "ENOSYS" },         { ENODATA, "ENODATA" },
        { EPROTO, "EPROTO" },     { EUSERS, "EUSERS" },       { ENOTCONN, "ENOTCONN" },     { ETIMEDOUT, "ETIMEDOUT" },
        { EALREADY, "EALREADY" }, { ECANCELED, "ECANCELED" }, { EOPNOTSUPP, "EOPNOTSUPP" }, { EOVERFLOW, "EOVERFLOW" },
    };
    unsigned int number = error < 0 ? 0u - (unsigned int)error : (unsigned int)error;
    struct tap_error_name name;

    snprintf(name.text, sizeof(name.text), "E%u", number);
    for (size_t i = 0; i < sizeof(known) / sizeof(known[0]); i++)
        if (number == (unsigned int)known[i].error)
            snprintf(name.text, sizeof(name.text), "%s", known[i].name);
    return name;
}

void tap_say_end(struct hal_tap *tap, const char *what, int answer)
{
    if (answer == 0)
        tap_say(tap, "%s end ok", what);
    else
        tap_say(tap, "%s end error %s", what, tap_name_of_error(answer).text);
}

/* ---- the log */

hal_tap *hal_tap_new(const char *path, int partial_results)
{
    struct hal_tap *tap;

    if (partial_results < 1 || partial_results > TAP_MOST_PARTS) {
        errno = EINVAL;
        return NULL;
    }
    tap = calloc(1, sizeof(*tap));
    if (tap == NULL)
        return NULL;
    if (tap_file_open(&tap->file, path) != 0) {
        free(tap);
        return NULL;
    }
    pthread_mutex_init(&tap->lock, NULL);
    tap_say(tap, "hal 1 %d", partial_results);
    return tap;
}

void hal_tap_note(hal_tap *tap, const char *format, ...)
{
    char text[201];
    va_list values;

    va_start(values, format);
    vsnprintf(text, sizeof(text), format, values);
    va_end(values);
    for (char *letter = text; *letter != '\0'; letter++)
        if (*letter < ' ' || *letter > '~')
            *letter = '?';
    tap_say(tap, "# %s", text);
}

void hal_tap_mark_bad_settings(hal_tap *tap)
{
    pthread_mutex_lock(&tap->lock);
    tap->bad_settings = true;
    pthread_mutex_unlock(&tap->lock);
}

int hal_tap_file(const hal_tap *tap)
{
    return tap->file.descriptor;
}

void hal_tap_free(hal_tap *tap)
{
    if (tap == NULL)
        return;
    while (tap->devices != NULL) {
        struct tap_device *device = tap->devices;

        tap->devices = device->next;
        free(device);
    }
    tap_names_free(&tap->names);
    tap_file_close(&tap->file);
    pthread_mutex_destroy(&tap->lock);
    free(tap);
}

/* ---- devices */

static struct tap_device *new_device(struct hal_tap *tap)
{
    struct tap_device *device = calloc(1, sizeof(*device));

    if (device != NULL)
        device->tap = tap;
    return device;
}

/* Puts the device of the tap in the place of the camera's own. */
static struct hw_device_t *put_in_place(struct tap_device *device, struct hw_device_t *camera)
{
    struct hal_tap *tap = device->tap;

    device->camera = (camera3_device_t *)camera;
    tap_fill_ops(device);
    pthread_mutex_lock(&tap->lock);
    tap_names_forget_fences(&tap->names);
    device->next = tap->devices;
    tap->devices = device;
    pthread_mutex_unlock(&tap->lock);
    return &device->device.common;
}

int hal_tap_open(hal_tap *tap, const struct hw_module_t *module, const char *id, struct hw_device_t **device)
{
    struct tap_device *added = new_device(tap);
    struct hw_device_t *camera = NULL;
    int answer;

    if (added == NULL)
        return -ENOMEM;
    tap_say(tap, "open begin");
    answer = module->methods->open(module, id, &camera);
    if (answer == 0 && camera != NULL)
        *device = put_in_place(added, camera);
    else
        free(added);
    if (answer == 0 && camera == NULL)
        answer = -ENODEV;
    tap_say_end(tap, "open", answer);
    return answer;
}

struct hw_device_t *hal_tap_wrap(hal_tap *tap, struct hw_device_t *device)
{
    struct tap_device *added = new_device(tap);

    if (added == NULL)
        return NULL;
    tap_say(tap, "open begin");
    tap_say(tap, "open end ok");
    return put_in_place(added, device);
}
