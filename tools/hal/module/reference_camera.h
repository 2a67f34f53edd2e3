/*
 * The reference HAL: a camera module whose device half is the proved device of pauvigre_device.h. What a call answers,
 * which step is ready, which error is told and which buffer comes back is decided there. Here is the rest: threads and
 * waiting, fences, the memory of buffers, the bytes of metadata, and who is called back when.
 *
 * One lock stands over the device and all that is kept beside it. It isn't held while the framework is called. One
 * thread makes the steps, and tells each before it makes the next: so callbacks come one at a time, in the order of the
 * device's events. A second one waits for acquire fences and has the pictures drawn.
 *
 * What is read from the environment where the camera is opened (reference_environment.c):
 *
 *   PAUVIGRE_FAULTS='request 3, result 5, buffer 7 0, device 20'   what shall fail
 *   PAUVIGRE_FAST=1                                                frames come as fast as they can
 */
#ifndef REFERENCE_CAMERA_H
#define REFERENCE_CAMERA_H

#include "pauvigre_device.h"

#include <hardware/camera3.h>
#include <pthread.h>
#include <stdbool.h>
#include <stddef.h>
#include <stdint.h>
#include <system/camera_vendor_tags.h>

#define REFERENCE_DEPTH 6 /* frames at once, and how many buffers of a RAW16 and of a YUV stream: our own device */
#define REFERENCE_RAW 3
#define REFERENCE_YUV 4
#define REFERENCE_FRAME_TIME 33333333 /* nanoseconds from one exposure to the next */
#define REFERENCE_FAULTS 64
#define REFERENCE_ASKED (PAUVIGRE_STREAMS + 1) /* of a longer list no more is shown to the device, which refuses it */
#define REFERENCE_BUFFERS (REFERENCE_DEPTH * PAUVIGRE_STREAMS)
#define REFERENCE_PACK_BYTES 512 /* room for the metadata of settings, or of a result */

/* A metadata pack in memory of its own. */
struct reference_pack {
    uint64_t bytes[REFERENCE_PACK_BYTES / sizeof(uint64_t)];
};

struct reference_options {
    struct pauvigre_fault faults[REFERENCE_FAULTS];
    size_t fault_count;
    uint64_t frame_time; /* 0: no waiting */
};

/* A buffer that the device has. */
struct reference_buffer {
    bool there;
    uint32_t frame, number;
    uint8_t place; /* of its stream in the configuration */
    camera3_stream_t *stream;
    buffer_handle_t *handle;
    uint8_t *memory;
    size_t length;
    int fence;              /* its acquire fence; -1: there is none, or it was waited for */
    uint64_t exposed_until; /* its picture can be drawn from then on; 0: not exposed yet */
};

struct reference_stream {
    camera3_stream_t *stream;
    size_t length; /* of a picture, in bytes */
};

struct reference_camera {
    camera3_device_t device;
    struct reference_options options; /* as the camera was opened */

    pthread_mutex_t lock; /* of what follows */
    pthread_cond_t changed;
    struct pauvigre_device proved;
    bool opened, closing;
    bool stopping; /* the threads shall end */
    bool telling;  /* a step is made, and its callback hasn't returned */
    const camera3_callback_ops_t *callbacks;
    struct reference_stream streams[PAUVIGRE_STREAMS];
    size_t stream_count;
    unsigned int configurations; /* how many there were */
    struct reference_buffer buffers[REFERENCE_BUFFERS];
    uint32_t next_number; /* of a buffer */
    uint64_t next_exposure;
    struct reference_pack templates[CAMERA3_TEMPLATE_COUNT];
    bool has_template[CAMERA3_TEMPLATE_COUNT];

    int wake; /* an event: whoever polls fences looks anew */
    bool polling;
    unsigned int polls; /* how often fences were polled */

    pthread_t steps, fills;
    struct reference_pack part; /* of the thread of steps alone */
};

/* The camera of a device. */
struct reference_camera *reference_camera_of(const struct camera3_device *device);

/* Once, before anything else; then the camera is opened and closed: 0, or a negative error number
 * (reference_opening.c). */
void reference_prepare(struct reference_camera *camera);
int reference_open(struct reference_camera *camera, const hw_module_t *module);
int reference_close(struct hw_device_t *device);

/* Nanoseconds of the clock that shutters and waiting go by. */
uint64_t reference_clock(void);

/* Something changed: who waits looks anew. With the lock taken. */
void reference_tell_changed(struct reference_camera *camera);

/* Waits for a change, or until the time where it isn't 0. With the lock taken. */
void reference_wait(struct reference_camera *camera, uint64_t until);

/* Reads the environment. False: what it says can't be read, and a message was written (reference_environment.c). */
bool reference_read_options(struct reference_options *options);

/* ---- the framework's calls (reference_calls.c, reference_request.c) */

extern camera3_device_ops_t reference_ops;
int reference_process_request(const struct camera3_device *device, camera3_capture_request_t *request);

/* ---- buffers that the device has (reference_buffers.c); with the lock taken */

/* The number that the framework's buffer has at the device; a new one where it isn't there. */
uint32_t reference_number_of(struct reference_camera *camera, buffer_handle_t *handle);

/* The device has the buffer from now on. */
void reference_keep(struct reference_camera *camera, const struct reference_buffer *buffer);

/* That of a frame for the stream at a place; NULL: the device doesn't have it. */
struct reference_buffer *reference_buffer_at(struct reference_camera *camera, uint32_t frame, uint8_t place);

/* The device has no buffer for the stream of an earlier frame. */
bool reference_is_first(const struct reference_camera *camera, const struct reference_buffer *buffer);

/* The pictures of a frame can be drawn from this time on. */
void reference_note_exposed(struct reference_camera *camera, uint32_t frame, uint64_t until);

/* The buffer goes back; `fence` becomes its release fence. */
camera3_stream_buffer_t reference_give_back(struct reference_buffer *buffer, int status, int fence);

/* ---- the two threads */

void *reference_make_steps(void *camera);   /* reference_steps.c */
void *reference_fill_buffers(void *camera); /* reference_fills.c */

/* The buffer's acquire fence, which isn't polled any more then; -1: there is none, or it was waited for. */
int reference_take_fence(struct reference_camera *camera, struct reference_buffer *buffer);

/* ---- what is told (reference_telling.c): by the thread of steps alone, without the lock */

enum reference_event_kind { REFERENCE_SHUTTER, REFERENCE_ERROR, REFERENCE_PART, REFERENCE_BUFFER };

struct reference_event {
    enum reference_event_kind kind;
    uint32_t frame;
    uint64_t time;            /* of a shutter */
    int error;                /* a CAMERA3_MSG_ERROR_.. */
    camera3_stream_t *stream; /* of an error, or NULL */
    struct pauvigre_part part;
    camera3_stream_buffer_t buffer;
};

void reference_tell(struct reference_camera *camera, const struct reference_event *event);

/* ---- metadata (reference_metadata.c, reference_characteristics.c) */

/* The settings in the framework's pack; what it lacks stands in `settings` before. */
void reference_read_settings(const camera_metadata_t *pack, struct pauvigre_settings *settings);

/* The pack of settings, and of a partial result, in the memory. NULL: it has no room. */
const camera_metadata_t *reference_pack_settings(struct reference_pack *pack, const struct pauvigre_settings *settings);
const camera_metadata_t *reference_pack_part(struct reference_pack *pack, const struct pauvigre_part *part);

/* What the camera says of itself; NULL: no memory. */
camera_metadata_t *reference_characteristics(void);

/* Our vendor tags. */
#define REFERENCE_TAG_PATTERN UINT32_C(0x80000000)
#define REFERENCE_TAG_LEVEL UINT32_C(0x80000001)
extern const vendor_tag_ops_t reference_vendor_tags;

#endif
