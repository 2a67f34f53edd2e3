/* The driver's program: loads a HAL, plays a script against it, and ends the log, whatever happens. */
#include "drive.h"

#include <dlfcn.h>
#include <errno.h>
#include <signal.h>
#include <stdio.h>
#include <stdlib.h>
#include <string.h>
#include <system/camera_metadata.h>
#include <unistd.h>

enum { STATUS_DONE, STATUS_GIVEN_UP, STATUS_USAGE, STATUS_CRASH, STATUS_HANG };

#define MOST_SECONDS 60

static const char usage[] =
    "usage: hal_drive [--no-env] HAL.so SCRIPT LOG\n"
    "                                       plays the script, and records it in LOG, which must not stand yet;\n"
    "                                       --no-env: without its `env` lines, which tell our two HALs what to do\n"
    "       hal_drive random SEED           writes the script of the seed\n"
    "HAL_DRIVE_PICTURES=FOLDER               writes each good picture to it, as FRAME-STREAM-FORMAT-WxH\n"
    "status: 0 played; 1 the camera kept back what the script needs; 2 something can't be read or loaded;\n"
    "        3 the camera crashed; 4 it hung for 60 seconds\n";

/* ---- what a signal says: a last comment, since all lines are written. A handler has no other place for the file. */

static volatile sig_atomic_t log_file = -1;

static void say_signal(int signal)
{
    static const char crash[] = "# the camera crashed\n", hang[] = "# the camera hangs: the driver ended it\n";

    if (signal == SIGALRM)
        (void)!write(log_file, hang, sizeof(hang) - 1);
    else
        (void)!write(log_file, crash, sizeof(crash) - 1);
    _exit(signal == SIGALRM ? STATUS_HANG : STATUS_CRASH);
}

static void watch_signals(int file)
{
    static const int crashes[] = { SIGSEGV, SIGBUS, SIGABRT, SIGFPE, SIGILL };

    log_file = file;
#if !defined(__SANITIZE_ADDRESS__) && !defined(__SANITIZE_THREAD__) /* these tell of a crash themselves */
    for (size_t i = 0; i < sizeof(crashes) / sizeof(crashes[0]); i++)
        signal(crashes[i], say_signal);
#else
    (void)crashes;
#endif
    signal(SIGPIPE, SIG_IGN);
    signal(SIGALRM, say_signal);
    alarm(MOST_SECONDS);
}

/* ---- the module */

static void on_status(const camera_module_callbacks_t *callbacks, int id, int status)
{
    (void)callbacks, (void)id, (void)status;
}

static void on_torch(const camera_module_callbacks_t *callbacks, const char *id, int status)
{
    (void)callbacks, (void)id, (void)status;
}

static const camera_module_callbacks_t module_callbacks = {
    .camera_device_status_change = on_status,
    .torch_mode_status_change = on_torch,
};

static int32_t number_in(const camera_metadata_t *metadata, uint32_t tag, int32_t other)
{
    camera_metadata_ro_entry_t entry;

    if (metadata == NULL || find_camera_metadata_ro_entry(metadata, tag, &entry) != 0 || entry.count == 0)
        return other;
    return entry.data.i32[0];
}

/* Loads the module; 0, or a message was written. */
static int load(struct drive *drive, const char *path)
{
    drive->library = dlopen(path, RTLD_NOW | RTLD_LOCAL);
    if (drive->library == NULL) {
        fprintf(stderr, "hal_drive: %s\n", dlerror());
        return -1;
    }
    drive->module = dlsym(drive->library, HAL_MODULE_INFO_SYM_AS_STR);
    if (drive->module == NULL || drive->module->get_camera_info == NULL) {
        fprintf(stderr, "hal_drive: %s: no camera module\n", path);
        return -1;
    }
    drive_module_fill(&drive->stand_in, drive->module);
    if (drive->module->init != NULL && drive->module->init() != 0) {
        fprintf(stderr, "hal_drive: %s: the module's init failed\n", path);
        return -1;
    }
    if (drive->module->set_callbacks != NULL)
        drive->module->set_callbacks(&module_callbacks);
    return 0;
}

/* What the camera says of itself, and the log's first lines. */
static int begin_log(struct drive *drive, const char *library, const char *log)
{
    struct camera_info info;

    memset(&info, 0, sizeof(info));
    if (drive->module->get_number_of_cameras() < 1 || drive->module->get_camera_info(0, &info) != 0) {
        fprintf(stderr, "hal_drive: %s: no camera\n", library);
        return -1;
    }
    drive->characteristics = info.static_camera_characteristics;
    drive->partials = number_in(info.static_camera_characteristics, ANDROID_REQUEST_PARTIAL_RESULT_COUNT, 1);
    drive->jpeg_size = number_in(info.static_camera_characteristics, ANDROID_JPEG_MAX_SIZE, 8 << 20);
    drive->tap = hal_tap_new(log, drive->partials);
    if (drive->tap == NULL) {
        fprintf(stderr, "hal_drive: %s: %s\n", log, strerror(errno));
        return -1;
    }
    watch_signals(hal_tap_file(drive->tap));
    hal_tap_note(drive->tap, "camera %s", drive->module->common.name);
    hal_tap_note(drive->tap, "device version %u.%u", info.device_version >> 8, info.device_version & 0xFF);
    return 0;
}

int drive_start(struct drive *drive, const char *library, const char *log)
{
    pthread_condattr_t clock;

    pthread_mutex_init(&drive->flushes, NULL);
    pthread_mutex_init(&drive->lock, NULL);
    pthread_condattr_init(&clock);
    pthread_condattr_setclock(&clock, CLOCK_MONOTONIC);
    pthread_cond_init(&drive->changed, &clock);
    pthread_condattr_destroy(&clock);
    drive->template_id = CAMERA3_TEMPLATE_PREVIEW;
    drive->pictures = getenv("HAL_DRIVE_PICTURES");
    drive->own_settings = allocate_camera_metadata(4, 64);
    if (drive->own_settings == NULL)
        return -1;
    add_camera_metadata_entry(drive->own_settings, ANDROID_CONTROL_MODE, (uint8_t[]){ ANDROID_CONTROL_MODE_AUTO }, 1);
    drive_fill_callbacks(drive);
    if (load(drive, library) != 0 || begin_log(drive, library, log) != 0)
        return -1;
    return drive_start_signaller(drive);
}

/* The HAL is let go first: threads that still call back are joined by that, where they are at all. */
void drive_end(struct drive *drive)
{
    drive_stop_signaller(drive);
    if (drive->library != NULL)
        dlclose(drive->library);
    pthread_mutex_lock(&drive->lock);
    drive_forget_requests(drive);
    pthread_mutex_unlock(&drive->lock);
    for (int i = 0; i < drive->buffer_count; i++) {
        drive_fence_drop(&drive->buffers[i]);
        if (drive->buffers[i].release >= 0)
            close(drive->buffers[i].release);
        buffer_file_free(drive->buffers[i].handle);
    }
    free_camera_metadata(drive->own_settings);
    hal_tap_free(drive->tap);
    pthread_cond_destroy(&drive->changed);
    pthread_mutex_destroy(&drive->lock);
    pthread_mutex_destroy(&drive->flushes);
}

/* ---- the program */

static int play(const char *library, const char *path, const char *log, bool no_env)
{
    struct drive_command *script = drive_read(path);
    struct drive *drive = calloc(1, sizeof(*drive));
    const char *name = strrchr(path, '/');
    int status = STATUS_USAGE;

    if (script != NULL && drive != NULL) {
        drive->no_env = no_env;
        if (!no_env)
            drive_set_environment(script);
        if (drive_start(drive, library, log) == 0) {
            hal_tap_note(drive->tap, "script %s", name == NULL ? path : name + 1);
            status = drive_play(drive, script) ? STATUS_DONE : STATUS_GIVEN_UP;
            drive_end(drive);
        }
    }
    free(drive);
    drive_free_script(script);
    return status;
}

int main(int count, char **words)
{
    bool no_env = false;

    if (count == 3 && strcmp(words[1], "random") == 0) {
        drive_write_random(strtoull(words[2], NULL, 10));
        return STATUS_DONE;
    }
    if (count > 1 && strcmp(words[1], "--no-env") == 0) {
        no_env = true;
        words++;
        count--;
    }
    if (count != 4) {
        fputs(usage, stderr);
        return STATUS_USAGE;
    }
    return play(words[1], words[2], words[3], no_env);
}
