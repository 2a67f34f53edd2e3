/* The module of the small camera HAL: one camera, its static metadata, and the opening. */
#include "fake_camera.h"

#include <errno.h>
#include <hardware/camera_common.h>
#include <stdlib.h>
#include <string.h>
#include <system/camera_metadata.h>

/* What the module has besides its entry point, which has no place for it. */
static struct {
    pthread_mutex_t lock;
    camera_metadata_t *characteristics;
    struct fake_camera *cameras;
} state = { .lock = PTHREAD_MUTEX_INITIALIZER };

static int32_t partial_results(void)
{
    const char *value = getenv("FAKE_PARTIALS");
    int count = value == NULL ? 3 : atoi(value);

    return count < 1 || count > 16 ? 3 : count;
}

static camera_metadata_t *new_characteristics(void)
{
    camera_metadata_t *all = allocate_camera_metadata(16, 256);
    int32_t partials = partial_results(), jpeg = 1 << 16, streams[] = { 2, 4, 2 };
    uint8_t depth = FAKE_DEPTH, level = ANDROID_INFO_SUPPORTED_HARDWARE_LEVEL_LIMITED;
    uint8_t capability = ANDROID_REQUEST_AVAILABLE_CAPABILITIES_BACKWARD_COMPATIBLE;

    if (all == NULL)
        return NULL;
    add_camera_metadata_entry(all, ANDROID_REQUEST_PARTIAL_RESULT_COUNT, &partials, 1);
    add_camera_metadata_entry(all, ANDROID_REQUEST_PIPELINE_MAX_DEPTH, &depth, 1);
    add_camera_metadata_entry(all, ANDROID_INFO_SUPPORTED_HARDWARE_LEVEL, &level, 1);
    add_camera_metadata_entry(all, ANDROID_REQUEST_AVAILABLE_CAPABILITIES, &capability, 1);
    add_camera_metadata_entry(all, ANDROID_REQUEST_MAX_NUM_OUTPUT_STREAMS, streams, 3);
    add_camera_metadata_entry(all, ANDROID_JPEG_MAX_SIZE, &jpeg, 1);
    return all;
}

static int get_number_of_cameras(void)
{
    return 1;
}

static int get_camera_info(int id, struct camera_info *info)
{
    if (id != 0)
        return -EINVAL;
    pthread_mutex_lock(&state.lock);
    if (state.characteristics == NULL)
        state.characteristics = new_characteristics();
    memset(info, 0, sizeof(*info));
    info->facing = CAMERA_FACING_BACK;
    info->device_version = CAMERA_DEVICE_API_VERSION_3_3;
    info->static_camera_characteristics = state.characteristics;
    pthread_mutex_unlock(&state.lock);
    return info->static_camera_characteristics == NULL ? -ENOMEM : 0;
}

static int set_callbacks(const camera_module_callbacks_t *callbacks)
{
    (void)callbacks;
    return 0;
}

static int open_camera(const hw_module_t *module, const char *id, hw_device_t **device)
{
    struct fake_camera *camera;
    int answer;

    if (id == NULL || strcmp(id, "0") != 0)
        return -EINVAL;
    answer = fake_camera_new(module, &camera);
    if (answer != 0)
        return answer;
    camera->partials = (unsigned int)partial_results();
    pthread_mutex_lock(&state.lock);
    camera->next = state.cameras;
    state.cameras = camera;
    pthread_mutex_unlock(&state.lock);
    *device = &camera->device.common;
    return 0;
}

static __attribute__((destructor)) void unload(void)
{
    while (state.cameras != NULL) {
        struct fake_camera *camera = state.cameras;

        state.cameras = camera->next;
        fake_camera_free(camera);
    }
    if (state.characteristics != NULL)
        free_camera_metadata(state.characteristics);
    state.characteristics = NULL;
}

static hw_module_methods_t methods = { .open = open_camera };

__attribute__((visibility("default"))) camera_module_t HAL_MODULE_INFO_SYM = {
    .common = {
        .tag = HARDWARE_MODULE_TAG,
        .module_api_version = CAMERA_MODULE_API_VERSION_2_4,
        .hal_api_version = HARDWARE_HAL_API_VERSION,
        .id = CAMERA_HARDWARE_MODULE_ID,
        .name = "a small camera HAL that makes no pictures",
        .author = "",
        .methods = &methods,
    },
    .get_number_of_cameras = get_number_of_cameras,
    .get_camera_info = get_camera_info,
    .set_callbacks = set_callbacks,
};
