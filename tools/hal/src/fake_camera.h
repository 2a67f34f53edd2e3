/*
 * fake_hal: a small camera HAL behind camera3.h, correct unless it is told to break a rule. It makes no pictures.
 *
 * What it reads from the environment where a camera is opened:
 *
 *   FAKE_BREAK=RULE      break this rule of the device, as soon as it can be broken: what has to happen before (a frame or
 *                        buffer that fails, the device's death) the camera brings about by itself
 *   FAKE_LAZY=FORM       keep all rules that a log shows and do nothing useful: `open` can't be opened, `init` can't be
 *                        initialized, `template` has none, `configure` refuses each configuration, `request` each
 *                        request, `gone` answers each request and all behind it as a device that is gone, `return` never
 *                        returns anything, `fail` fails each request whole, `flush` refuses each flush
 *   FAKE_DROP=KIND:N,..  each N-th frame lacks something: `request` fails whole, `result` has no last metadata, `buffer`
 *                        has a buffer that fails
 *   FAKE_EARLY=1         buffers go back at the shutter, with a release fence
 *   FAKE_DIE_AFTER=N     the device fails when it has finished N frames
 *   FAKE_FRAME_US=N      the time from frame to frame, 1,000 if unset (20,000 where a flush or close is to leave frames)
 *   FAKE_CALL_US=N       how long a request is in call at least, 0 if unset
 *   FAKE_FENCE_MS=N      how long an acquire fence is waited for, 200 if unset
 *   FAKE_MAX_BUFFERS=N   max_buffers of each stream, 4 if unset
 *
 * and where the module is loaded: FAKE_PARTIALS=N, the partial result count from 1 to 16, 3 if unset.
 */
#ifndef FAKE_CAMERA_H
#define FAKE_CAMERA_H

#include "fake_rules.h"

#include <hardware/camera3.h>
#include <pthread.h>
#include <stdbool.h>

#define FAKE_MOST_STREAMS 8
#define FAKE_DEPTH 8 /* frames at once */
#define FAKE_TEMPLATES CAMERA3_TEMPLATE_COUNT

/* Which frames lack something: each N-th, none where N is 0. */
struct fake_drops {
    unsigned int request, result, buffer;
};

enum fake_lazy {
    FAKE_DILIGENT,
    FAKE_LAZY_OPEN,
    FAKE_LAZY_INIT,
    FAKE_LAZY_TEMPLATE,
    FAKE_LAZY_CONFIGURE,
    FAKE_LAZY_REQUEST,
    FAKE_LAZY_GONE,
    FAKE_LAZY_RETURN,
    FAKE_LAZY_FAIL,
    FAKE_LAZY_FLUSH,
    FAKE_LAZY_COUNT
};

struct fake_options {
    enum fake_rule broken;
    enum fake_lazy lazy;
    struct fake_drops drops;
    bool early;
    unsigned int die_after, frame_us, call_us, fence_ms, max_buffers;
};

/* What becomes of a frame. */
enum fake_fate { FAKE_WHOLE, FAKE_NO_REQUEST, FAKE_NO_RESULT, FAKE_NO_BUFFER };

struct fake_target {
    camera3_stream_t *stream;
    buffer_handle_t *buffer;
    int acquire; /* the acquire fence, -1 where there is none or it was waited for */
    int release; /* of an early return, the right to signal its release fence; else -1 */
    bool failed; /* it can't be filled */
    bool back;   /* written with the camera's lock */
};

struct fake_frame {
    uint32_t number;
    uint32_t count;
    struct fake_target targets[FAKE_MOST_STREAMS];
    enum fake_fate fate;
    bool victim;  /* the rule that is to be broken is broken with this frame */
    bool exposed; /* its turn has come */
    struct fake_frame *next;
};

/* A part of a frame that is kept back until a later frame has overtaken it: a buffer, or else the last metadata. */
struct fake_late {
    struct fake_frame *frame;
    struct fake_target *target;
};

struct fake_camera {
    camera3_device_t device;
    struct fake_options options;
    const camera3_callback_ops_t *callbacks;
    camera_metadata_t *settings[FAKE_TEMPLATES];
    unsigned int partials;

    pthread_mutex_t lock; /* of what follows; not held while the framework is called */
    pthread_cond_t changed;
    bool initialized, dying, dead, closed, flushing, stopping, configured, seen_settings;
    camera3_stream_t *streams[FAKE_MOST_STREAMS];
    uint32_t stream_count;
    struct fake_frame *first; /* the frames that are accepted and not finished, in their order */
    unsigned int open;        /* how many they are */
    unsigned int begun;
    unsigned int next_ticket, served_ticket; /* of requests in call */
    bool has_number;
    uint32_t last_number;

    /* of the worker alone */
    pthread_t worker;
    struct fake_frame *exposing; /* its shutter was told, and it isn't finished */
    struct fake_late late;
    unsigned int finished;
    camera_metadata_t *part, *nothing;

    pthread_t ghost; /* calls back after the close, where it is told to */
    bool has_ghost;
    struct fake_camera *next; /* of the module's cameras; a camera stays until the module is let go */
};

/* The camera breaks the rule (with each frame; with this one, which is picked). */
bool fake_breaks(const struct fake_camera *camera, enum fake_rule rule);
bool fake_breaks_with(const struct fake_camera *camera, const struct fake_frame *frame, enum fake_rule rule);

/* The camera of a device, and its ops (fake_calls.c). */
int fake_camera_new(const hw_module_t *module, struct fake_camera **camera);
void fake_camera_free(struct fake_camera *camera);

/* The thread that makes the frames (fake_worker.c). */
void *fake_work(void *camera);

/* What is told of a frame (fake_telling.c). The worker's thread alone calls these, without the lock. */
void fake_tell_shutter(struct fake_camera *camera, uint32_t number);
void fake_tell_error(struct fake_camera *camera, uint32_t number, camera3_stream_t *stream, int code);
void fake_expose(struct fake_camera *camera, struct fake_frame *frame);

/* Each tells what is left of the frame. False: a part of it is kept back, and told later by fake_tell_late. */
bool fake_finish(struct fake_camera *camera, struct fake_frame *frame);
bool fake_fail(struct fake_camera *camera, struct fake_frame *frame);

/* The frame, which is finished, has told what overtakes the part of an earlier one. */
bool fake_overtakes(const struct fake_frame *frame, const struct fake_late *late);

/* Tells what is kept back, if anything; its frame, which is finished by that, or NULL. */
struct fake_frame *fake_tell_late(struct fake_camera *camera);

/* Closes what the frame still has, and frees it. */
void fake_frame_free(struct fake_frame *frame);

/* Metadata with one entry that the tag names; NULL where memory is missing. */
camera_metadata_t *fake_metadata(bool with_entry);

#endif
