/*
 * The tap as a camera module: put in the place of a camera HAL, it loads that, and records each camera that is opened.
 *
 *   HAL_TAP_MODULE   the path of the camera HAL that is recorded
 *   HAL_TAP_FOLDER   where the logs are written, one for each camera: camera-ID.log, camera-ID.1.log ..; `.` if unset
 *
 * Both are read from the environment when the library is loaded. A build may give them other defaults
 * (-DHAL_TAP_MODULE_DEFAULT='"PATH"', -DHAL_TAP_FOLDER_DEFAULT='"PATH"'). Without a module to record nothing is done.
 */
#include "hal_tap.h"

#include <dlfcn.h>
#include <errno.h>
#include <hardware/camera_common.h>
#include <pthread.h>
#include <stdio.h>
#include <stdlib.h>
#include <string.h>
#include <system/camera_metadata.h>

#ifndef HAL_TAP_MODULE_DEFAULT
#define HAL_TAP_MODULE_DEFAULT NULL
#endif
#ifndef HAL_TAP_FOLDER_DEFAULT
#define HAL_TAP_FOLDER_DEFAULT "."
#endif

#define MOST_CAMERAS 32
#define MOST_LOGS 1000

/* The log of a camera, which goes on where it is opened anew. */
struct recorded {
    char id[16];
    hal_tap *tap;
};

/* What the module must know: its entry point has no place for it. */
static struct {
    pthread_mutex_t lock;
    camera_module_t *module;
    struct recorded cameras[MOST_CAMERAS];
    int count;
} state = { .lock = PTHREAD_MUTEX_INITIALIZER };

static const char *setting(const char *name, const char *other)
{
    const char *value = getenv(name);

    return value != NULL && *value != '\0' ? value : other;
}

static int partial_results(const char *id)
{
    struct camera_info info;
    camera_metadata_ro_entry_t entry;

    memset(&info, 0, sizeof(info));
    if (state.module->get_camera_info(atoi(id), &info) != 0 || info.static_camera_characteristics == NULL)
        return 1;
    if (find_camera_metadata_ro_entry(info.static_camera_characteristics, ANDROID_REQUEST_PARTIAL_RESULT_COUNT, &entry)
            != 0
        || entry.count == 0)
        return 1;
    return entry.data.i32[0];
}

/* The first name that isn't taken. */
static hal_tap *new_log(const char *id)
{
    const char *folder = setting("HAL_TAP_FOLDER", HAL_TAP_FOLDER_DEFAULT);
    int count = partial_results(id);
    hal_tap *tap = NULL;

    for (int i = 0; i < MOST_LOGS && tap == NULL; i++) {
        char path[4096];

        if (i == 0)
            snprintf(path, sizeof(path), "%s/camera-%s.log", folder, id);
        else
            snprintf(path, sizeof(path), "%s/camera-%s.%d.log", folder, id, i);
        tap = hal_tap_new(path, count);
        if (tap == NULL && errno != EEXIST) {
            fprintf(stderr, "hal_tap: %s: %s\n", path, strerror(errno));
            return NULL;
        }
    }
    return tap;
}

static hal_tap *tap_of(const char *id)
{
    struct recorded *camera = NULL;

    pthread_mutex_lock(&state.lock);
    for (int i = 0; i < state.count; i++)
        if (strcmp(state.cameras[i].id, id) == 0)
            camera = &state.cameras[i];
    if (camera == NULL && state.count < MOST_CAMERAS && strlen(id) < sizeof(camera->id)) {
        camera = &state.cameras[state.count];
        camera->tap = new_log(id);
        if (camera->tap != NULL) {
            snprintf(camera->id, sizeof(camera->id), "%s", id);
            state.count++;
        }
    }
    pthread_mutex_unlock(&state.lock);
    return camera == NULL ? NULL : camera->tap;
}

/* A camera that can't be recorded is opened all the same. */
static int open_recorded(const struct hw_module_t *module, const char *id, struct hw_device_t **device)
{
    hal_tap *tap = id == NULL ? NULL : tap_of(id);

    (void)module;
    if (tap == NULL)
        return state.module->common.methods->open(&state.module->common, id, device);
    return hal_tap_open(tap, &state.module->common, id, device);
}

static struct hw_module_methods_t methods = { .open = open_recorded };

/* The entry point: a copy of that of the HAL, but for the opening. */
HAL_TAP_API camera_module_t HAL_MODULE_INFO_SYM;

static __attribute__((constructor)) void load(void)
{
    const char *path = setting("HAL_TAP_MODULE", HAL_TAP_MODULE_DEFAULT);
    void *library;

    if (path == NULL)
        return;
    library = dlopen(path, RTLD_NOW | RTLD_LOCAL);
    state.module = library == NULL ? NULL : dlsym(library, HAL_MODULE_INFO_SYM_AS_STR);
    if (state.module == NULL) {
        fprintf(stderr, "hal_tap: %s\n", dlerror());
        return;
    }
    HAL_MODULE_INFO_SYM = *state.module;
    HAL_MODULE_INFO_SYM.common.methods = &methods;
}
