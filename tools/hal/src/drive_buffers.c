/*
 * A stand-in for the gralloc module, over the buffers of buffer_file.h. A HAL gets it by the module that it is opened
 * with (GRALLOC_HARDWARE_GPU0), or by hw_get_module, which this program exports.
 */
#include "drive.h"

#include <errno.h>
#include <hardware/gralloc.h>
#include <stdlib.h>
#include <string.h>

/* ---- the device that allocates */

static int allocate(struct alloc_device_t *device, int width, int height, int format, int usage,
                    buffer_handle_t *handle, int *stride)
{
    (void)device, (void)format, (void)usage;
    *handle = buffer_file_new((size_t)width * (size_t)height * 2);
    *stride = width;
    return *handle == NULL ? -ENOMEM : 0;
}

static int release(struct alloc_device_t *device, buffer_handle_t handle)
{
    (void)device;
    buffer_file_free(handle);
    return 0;
}

static int close_allocator(struct hw_device_t *device)
{
    free(device);
    return 0;
}

static int open_allocator(struct hw_device_t **device)
{
    alloc_device_t *made = calloc(1, sizeof(*made));

    if (made == NULL)
        return -ENOMEM;
    made->common.tag = HARDWARE_DEVICE_TAG;
    made->common.close = close_allocator;
    made->alloc = allocate;
    made->free = release;
    *device = &made->common;
    return 0;
}

/* ---- the module that a HAL is opened with */

static int open_stand_in(const hw_module_t *module, const char *id, hw_device_t **device)
{
    const struct drive_module *self = (const struct drive_module *)module; /* it is the first member */

    if (strcmp(id, GRALLOC_HARDWARE_GPU0) == 0)
        return open_allocator(device);
    return self->camera->common.methods->open(module, id, device);
}

void drive_module_fill(struct drive_module *module, const camera_module_t *camera)
{
    module->common = camera->common;
    module->methods.open = open_stand_in;
    module->common.methods = &module->methods;
    module->camera = camera;
}

/* ---- the module that hw_get_module gives */

static int map_buffer(gralloc_module_t const *module, buffer_handle_t handle, int usage, int left, int top, int width,
                      int height, void **address)
{
    (void)module, (void)usage, (void)left, (void)top, (void)width, (void)height;
    *address = buffer_file_map(handle, buffer_file_size(handle));
    return *address == NULL ? -EINVAL : 0;
}

/* A mapping stays until the program ends: the call has only the handle. */
static int leave_buffer(gralloc_module_t const *module, buffer_handle_t handle)
{
    (void)module, (void)handle;
    return 0;
}

static int open_gralloc(const hw_module_t *module, const char *id, hw_device_t **device)
{
    (void)module;
    return strcmp(id, GRALLOC_HARDWARE_GPU0) == 0 ? open_allocator(device) : -EINVAL;
}

static hw_module_methods_t gralloc_methods = { .open = open_gralloc };

static const gralloc_module_t gralloc = {
    .common = {
        .tag = HARDWARE_MODULE_TAG,
        .id = GRALLOC_HARDWARE_MODULE_ID,
        .name = "a stand-in for gralloc",
        .author = "",
        .methods = &gralloc_methods,
    },
    .registerBuffer = leave_buffer,
    .unregisterBuffer = leave_buffer,
    .lock = map_buffer,
    .unlock = leave_buffer,
};

__attribute__((visibility("default"))) int hw_get_module(const char *id, const struct hw_module_t **module)
{
    if (strcmp(id, GRALLOC_HARDWARE_MODULE_ID) != 0)
        return -ENOENT;
    *module = &gralloc.common;
    return 0;
}

__attribute__((visibility("default"))) int hw_get_module_by_class(const char *class_id, const char *inst,
                                                                  const struct hw_module_t **module)
{
    (void)inst;
    return hw_get_module(class_id, module);
}
