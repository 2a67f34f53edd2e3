/* The entry point of the reference HAL: one camera, what it says of itself, its vendor tags, and the opening. */
#include "reference_camera.h"

#include <camera_metadata_hidden.h>
#include <errno.h>
#include <hardware/camera_common.h>
#include <string.h>
#include <system/camera_metadata.h>

/* What the module has besides its entry point, which has no place for it. The camera is there from the start, and
 * stays: so a device that was closed answers ENODEV as long as the module is loaded. */
static struct {
    pthread_mutex_t lock;
    camera_metadata_t *characteristics;
    struct reference_camera camera;
} state = { .lock = PTHREAD_MUTEX_INITIALIZER };

static int get_number_of_cameras(void)
{
    return 1;
}

static int get_camera_info(int id, struct camera_info *info)
{
    if (id != 0 || info == NULL)
        return -EINVAL;
    memset(info, 0, sizeof(*info));
    info->facing = CAMERA_FACING_BACK;
    info->device_version = CAMERA_DEVICE_API_VERSION_3_3;
    info->resource_cost = 100;
    pthread_mutex_lock(&state.lock);
    if (state.characteristics == NULL)
        state.characteristics = reference_characteristics();
    info->static_camera_characteristics = state.characteristics;
    pthread_mutex_unlock(&state.lock);
    return info->static_camera_characteristics == NULL ? -ENOMEM : 0;
}

static int set_callbacks(const camera_module_callbacks_t *callbacks)
{
    (void)callbacks; /* the camera neither comes nor goes, and has no torch */
    return 0;
}

static void get_vendor_tag_ops(vendor_tag_ops_t *ops)
{
    *ops = reference_vendor_tags;
}

static int open_camera(const hw_module_t *module, const char *id, hw_device_t **device)
{
    int answer;

    if (id == NULL || device == NULL || strcmp(id, "0") != 0)
        return -EINVAL;
    answer = reference_open(&state.camera, module);
    if (answer == 0)
        *device = &state.camera.device.common;
    return answer;
}

static __attribute__((constructor)) void load(void)
{
    reference_prepare(&state.camera);
    set_camera_metadata_vendor_ops(&reference_vendor_tags);
}

static __attribute__((destructor)) void unload(void)
{
    reference_close(&state.camera.device.common);
    if (state.characteristics != NULL)
        free_camera_metadata(state.characteristics);
    state.characteristics = NULL;
}

static hw_module_methods_t methods = { .open = open_camera };

__attribute__((visibility("default"))) camera_module_t HAL_MODULE_INFO_SYM = {
    .common = {
        .tag = HARDWARE_MODULE_TAG,
        .module_api_version = CAMERA_MODULE_API_VERSION_2_4,
        .hal_api_version = HARDWARE_HAL_API_VERSION,
        .id = CAMERA_HARDWARE_MODULE_ID,
        .name = "Pauvigre, a reference HAL over a proved device",
        .author = "",
        .methods = &methods,
    },
    .get_number_of_cameras = get_number_of_cameras,
    .get_camera_info = get_camera_info,
    .set_callbacks = set_callbacks,
    .get_vendor_tag_ops = get_vendor_tag_ops,
};
