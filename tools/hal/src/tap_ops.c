/* The ops of a device of the tap, and its callbacks: each writes its lines, and passes the call on. */
#include "tap_state.h"

#include <stddef.h>
#include <stdio.h>

static struct tap_device *device_of(const struct camera3_device *device)
{
    return (struct tap_device *)device; /* it is the first member, and was made by the tap */
}

static struct tap_device *device_of_callbacks(const struct camera3_callback_ops *callbacks)
{
    return (struct tap_device *)((char *)callbacks - offsetof(struct tap_device, callbacks));
}

/* ---- callbacks: written before they are passed on */

static void on_result(const struct camera3_callback_ops *callbacks, const camera3_capture_result_t *result)
{
    struct tap_device *self = device_of_callbacks(callbacks);

    if (result == NULL)
        tap_say(self->tap, "# a result that is NULL");
    else
        tap_say_result(self->tap, result);
    self->framework->process_capture_result(self->framework, result);
}

static void on_notify(const struct camera3_callback_ops *callbacks, const camera3_notify_msg_t *message)
{
    struct tap_device *self = device_of_callbacks(callbacks);

    if (message == NULL)
        tap_say(self->tap, "# a message that is NULL");
    else
        tap_say_notify(self->tap, message);
    self->framework->notify(self->framework, message);
}

/* ---- calls: `begin` before the camera is entered, `end` when it has returned */

static int initialize(const struct camera3_device *device, const camera3_callback_ops_t *callbacks)
{
    struct tap_device *self = device_of(device);
    int answer;

    self->framework = callbacks;
    tap_say(self->tap, "init begin");
    answer = self->camera->ops->initialize(self->camera, callbacks == NULL ? NULL : &self->callbacks);
    tap_say_end(self->tap, "init", answer);
    return answer;
}

static int configure_streams(const struct camera3_device *device, camera3_stream_configuration_t *configuration)
{
    struct tap_device *self = device_of(device);
    int answer;

    if (configuration == NULL) {
        tap_say(self->tap, "# a configure with NULL, of which the log has no line");
        return self->camera->ops->configure_streams(self->camera, configuration);
    }
    tap_say_configure(self->tap, configuration);
    answer = self->camera->ops->configure_streams(self->camera, configuration);
    if (answer == 0)
        tap_say_configured(self->tap, configuration);
    else
        tap_say_end(self->tap, "configure", answer);
    return answer;
}

static int register_stream_buffers(const struct camera3_device *device, const camera3_stream_buffer_set_t *buffers)
{
    struct tap_device *self = device_of(device);

    return self->camera->ops->register_stream_buffers(self->camera, buffers);
}

static const camera_metadata_t *construct_default_request_settings(const struct camera3_device *device, int template_id)
{
    struct tap_device *self = device_of(device);
    const camera_metadata_t *settings;

    tap_say(self->tap, "template %u begin", (unsigned int)template_id);
    settings = self->camera->ops->construct_default_request_settings(self->camera, template_id);
    tap_say(self->tap, "template %u end %s", (unsigned int)template_id, settings == NULL ? "null" : "ok");
    return settings;
}

static int process_capture_request(const struct camera3_device *device, camera3_capture_request_t *request)
{
    struct tap_device *self = device_of(device);
    uint32_t frame;
    int answer;

    if (request == NULL) {
        tap_say(self->tap, "# a request that is NULL, of which the log has no line");
        return self->camera->ops->process_capture_request(self->camera, request);
    }
    frame = request->frame_number;
    tap_say_request(self->tap, request);
    answer = self->camera->ops->process_capture_request(self->camera, request);
    tap_say_request_end(self->tap, frame, answer);
    return answer;
}

static void get_metadata_vendor_tag_ops(const struct camera3_device *device, vendor_tag_query_ops_t *ops)
{
    struct tap_device *self = device_of(device);

    self->camera->ops->get_metadata_vendor_tag_ops(self->camera, ops);
}

static void dump(const struct camera3_device *device, int descriptor)
{
    struct tap_device *self = device_of(device);

    self->camera->ops->dump(self->camera, descriptor);
}

static int flush(const struct camera3_device *device)
{
    struct tap_device *self = device_of(device);
    int answer;

    tap_say(self->tap, "flush begin");
    answer = self->camera->ops->flush(self->camera);
    tap_say_end(self->tap, "flush", answer);
    return answer;
}

static int close_device(struct hw_device_t *device)
{
    struct tap_device *self = device_of((const struct camera3_device *)device);
    int answer;

    tap_say(self->tap, "close begin");
    answer = self->camera->common.close(&self->camera->common);
    tap_say(self->tap, "close end");
    return answer;
}

void tap_fill_ops(struct tap_device *device)
{
    const camera3_device_ops_t *ops = device->camera->ops;

    device->device = *device->camera;
    device->device.common.close = close_device;
    device->device.ops = &device->ops;
    device->callbacks.process_capture_result = on_result;
    device->callbacks.notify = on_notify;
    device->ops.initialize = ops->initialize == NULL ? NULL : initialize;
    device->ops.configure_streams = ops->configure_streams == NULL ? NULL : configure_streams;
    device->ops.register_stream_buffers = ops->register_stream_buffers == NULL ? NULL : register_stream_buffers;
    device->ops.construct_default_request_settings =
        ops->construct_default_request_settings == NULL ? NULL : construct_default_request_settings;
    device->ops.process_capture_request = ops->process_capture_request == NULL ? NULL : process_capture_request;
    device->ops.get_metadata_vendor_tag_ops =
        ops->get_metadata_vendor_tag_ops == NULL ? NULL : get_metadata_vendor_tag_ops;
    device->ops.dump = ops->dump == NULL ? NULL : dump;
    device->ops.flush = ops->flush == NULL ? NULL : flush;
}
