/*
 * A framework for tests of the reference HAL: it loads the module, notes what is called back, and makes requests whose
 * parts a test chooses. `client_check` counts what isn't so.
 */
#ifndef TEST_CLIENT_H
#define TEST_CLIENT_H

#include <hardware/camera3.h>
#include <hardware/camera_common.h>
#include <pthread.h>
#include <stdbool.h>
#include <stdint.h>

#define CLIENT_FRAMES 64
#define CLIENT_STREAMS 4

/* What came back of a frame for a stream. */
struct client_back {
    int count; /* how often */
    int status, release_fence;
    bool written; /* the picture's last byte isn't what it was */
};

/* What was told of a frame. */
struct client_frame {
    uint64_t shutter;
    int errors[CAMERA3_MSG_NUM_ERRORS];
    int64_t timestamp, exposure;
    int32_t iso, level;
    uint8_t pattern;
    int parts;
    struct client_back back[CLIENT_STREAMS];
};

struct client {
    camera3_callback_ops_t callbacks;
    void *library;
    camera_module_t *module;
    vendor_tag_ops_t tags;
    camera3_device_t *device;
    camera3_stream_t streams[CLIENT_STREAMS];
    buffer_handle_t buffers[CLIENT_FRAMES][CLIENT_STREAMS];

    pthread_mutex_t lock; /* of what follows */
    pthread_cond_t changed;
    struct client_frame frames[CLIENT_FRAMES];
    bool dead;
};

/* Counts a check, and says what isn't so. The status of a program is 0 where none failed. */
void client_check(bool is_so, const char *what);
int client_status(void);

/* Loads the module at the path; ends the program where that fails. */
void client_load(struct client *client, const char *path);
void client_unload(struct client *client);

/* Opens, initializes and configures YUV 160x120, YUV 80x60, YUV 40x30 and RAW16 160x120. */
int client_open(struct client *client);
void client_start(struct client *client);
void client_close(struct client *client);

/* A request for the frame with a new buffer of each of the first streams, all with the acquire fence. */
struct client_request {
    camera3_capture_request_t request;
    camera3_stream_buffer_t targets[CLIENT_STREAMS + 1];
};
void client_fill(struct client *client, struct client_request *made, uint32_t frame, uint32_t streams, int fence);

/* Makes such a request, with a preview's settings. */
int client_ask(struct client *client, uint32_t frame, uint32_t streams, int fence);

/* Waits until the frame's buffer for the stream is back, 2 seconds at most; whether it is back now. */
bool client_wait(struct client *client, uint32_t frame, uint32_t stream);
bool client_has(struct client *client, uint32_t frame, uint32_t stream);

/* A fence, and its signal. */
int client_fence(void);
void client_signal(int fence);

#endif
