/*
 * The proved camera device of Pauvigre for C: what stands behind camera3_device_t.
 *
 * Every call may be made at any time, in any order, on a handle that is open or not: each tests what it asks, answers
 * an error where it can't be done, and then changes nothing. A call that answers an error leaves what its pointers
 * point to as it was.
 *
 * Answers are 0, or a negative error number:
 *
 *   -ENODEV  the handle isn't open; the device failed, or its close has begun
 *   -EINVAL  an argument is invalid
 *   -ENOSYS  the call comes in the wrong sequence
 *   -EAGAIN  the call has to wait, or the step isn't ready: it may be once another step is made
 *   -ENOMEM  there is no memory (pauvigre_open and pauvigre_configure alone, which alone take memory)
 *
 * One call at a time, from any thread: the library takes no lock, starts no thread, never waits and calls nothing
 * back. Whoever has several threads holds a lock over each call, and over the callback that it makes of the answer, so
 * that callbacks have the order of the device's events. The handle isn't copied while it is open.
 *
 * No pointer may be null, also where a count is 0. The library links with the kit's libc/c/heap.c (malloc, free).
 */
#ifndef PAUVIGRE_DEVICE_H
#define PAUVIGRE_DEVICE_H

#include <stdbool.h>
#include <stddef.h>
#include <stdint.h>

#ifdef __cplusplus
extern "C" {
#endif

/* A configuration has at most so many streams; they are numbered from 0 on, in order. */
#define PAUVIGRE_STREAMS 4

/* A frame has so many partial results, numbered 1, 2, 3. */
#define PAUVIGRE_PARTS 3

/* A device, or none. Zeroed by its owner before the first call: struct pauvigre_device device = {0}; */
struct pauvigre_device {
    void *at;
};

/* ---- opening and end ---- */

/* How many frames may be open at once, and how many buffers of a RAW16 and of a YUV stream may be at the device; each
 * from 1 to 16. {6, 3, 4} is our own device. */
struct pauvigre_profile {
    uint32_t depth;
    uint32_t raw;
    uint32_t yuv;
};

/* A fault that the device shall have. */
enum {
    PAUVIGRE_FAULT_REQUEST = 1, /* the capture of the frame fails whole */
    PAUVIGRE_FAULT_RESULT = 2,  /* the frame lacks its last partial result */
    PAUVIGRE_FAULT_BUFFER = 3,  /* the frame's buffer for the stream can't be filled */
    PAUVIGRE_FAULT_DEVICE = 4   /* the device fails where the frame would have its shutter */
};

struct pauvigre_fault {
    uint32_t kind;
    uint32_t frame;
    uint8_t stream; /* of PAUVIGRE_FAULT_BUFFER alone; 0 else */
};

/* Opens a device. -EINVAL: the handle is open, a number of the profile isn't from 1 to 16, a fault has another kind
 * than those above, or there are more than 65,536; -ENOMEM. */
int32_t pauvigre_open(struct pauvigre_device *device, const struct pauvigre_profile *profile,
                      const struct pauvigre_fault *faults, size_t fault_count);

/* Ends the device, whatever is open, and gives all its memory back; the handle is zeroed, and may be opened anew.
 * Whoever keeps the header's rules has called pauvigre_begin_close before, and made steps until no row is left. */
int32_t pauvigre_close(struct pauvigre_device *device);

/* ---- the framework's calls ---- */

/* camera3 initialize. -ENODEV; -ENOSYS: it was called before. */
int32_t pauvigre_initialize(struct pauvigre_device *device);

/* A stream. `format` is the framework's number: 0x20 RAW16 (160x120), 0x23 YUV (160x120, 80x60, 40x30). */
struct pauvigre_stream {
    uint32_t format;
    uint32_t width;
    uint32_t height;
    bool input;
};

/* For each stream of a configuration, how many of its buffers may be at the device; 0 where there is no stream. */
struct pauvigre_max_buffers {
    uint32_t of[PAUVIGRE_STREAMS];
};

/* camera3 configure_streams. -ENODEV; -ENOSYS: not initialized, a flush is under way, or a request is at the device;
 * -EINVAL: the streams are refused (none, more than four, an input, a format or size that isn't offered, a second RAW16
 * stream, a fourth YUV stream); -ENOMEM. */
int32_t pauvigre_configure(struct pauvigre_device *device, const struct pauvigre_stream *streams, size_t stream_count,
                           struct pauvigre_max_buffers *max_buffers);

/* The settings of a request: pattern 0 solid, 1 bars, 2 ramp; level 0 to 255; exposure in nanoseconds, 100,000 to
 * 100,000,000; ISO 100 to 1,600. */
struct pauvigre_settings {
    uint64_t exposure;
    uint32_t iso;
    uint32_t level;
    uint8_t pattern;
};

/* camera3 construct_default_request_settings of a template of the header's, 1 to 6; STILL_CAPTURE (2) has settings of
 * its own, the others have those of PREVIEW. -ENODEV; -ENOSYS: not initialized; -EINVAL: another template. */
int32_t pauvigre_default_settings(struct pauvigre_device *device, uint32_t template_id,
                                  struct pauvigre_settings *settings);

/* A buffer that a request asks to be filled: the stream's place in the configuration, and the framework's number of the
 * buffer. A buffer has one number as long as the device has it, and no other buffer has the same then. */
struct pauvigre_target {
    uint32_t stream;
    uint32_t buffer;
};

/* camera3 process_capture_request, with settings, and with those of the request before. -ENODEV; -ENOSYS: nothing is
 * configured; -EINVAL: the frame's number isn't above all accepted ones, no target is named, or one of a stream that
 * isn't configured, a stream or a buffer twice, there are no settings since the configuration, or one is out of its
 * range; -EAGAIN: a flush is under way, as many frames are open as may be, or a stream has as many buffers at the
 * device as may be: the call is to be made anew after the next step. */
int32_t pauvigre_request(struct pauvigre_device *device, uint32_t frame, const struct pauvigre_settings *settings,
                         const struct pauvigre_target *targets, size_t target_count);
int32_t pauvigre_request_as_before(struct pauvigre_device *device, uint32_t frame,
                                   const struct pauvigre_target *targets, size_t target_count);

/* camera3 flush: begins (all that hasn't come of the requests fails now: what fails is told and given back by the steps
 * below), and ends, once no row is left. Beginning: -ENODEV; -ENOSYS: not initialized; -EAGAIN: one is under way.
 * Ending: -ENODEV: the handle isn't open; -ENOSYS: none is under way; -EAGAIN: a frame is still open. */
int32_t pauvigre_begin_flush(struct pauvigre_device *device);
int32_t pauvigre_end_flush(struct pauvigre_device *device);

/* camera3 close begins: all that hasn't come of the requests fails, and no call of the framework's is taken any more.
 * The steps go on until no row is left; then pauvigre_close. -ENODEV: the handle isn't open. */
int32_t pauvigre_begin_close(struct pauvigre_device *device);

/* ---- what is ready ---- */

/* A target of an open frame. `there`: the request named a buffer of the stream; the others are false, and `buffer` 0,
 * where it didn't. Each `may_` says that the step below wouldn't answer -EAGAIN now (pauvigre_deliver: given memory of
 * the picture's length). */
struct pauvigre_row_target {
    uint32_t buffer;
    bool there;
    bool may_fill;
    bool may_deliver;
    bool may_return_failed;
};

/* An open frame: which of its steps are ready now. `may_expose`: it is the frame whose exposure is next. */
struct pauvigre_row {
    uint32_t frame;
    bool may_expose;
    bool may_send_part;
    bool may_tell_error;
    struct pauvigre_row_target targets[PAUVIGRE_STREAMS];
};

/* The open frame at a place, from 0 on, in order of frame numbers. -ENODEV; -EINVAL: so many frames aren't open. */
int32_t pauvigre_row_at(struct pauvigre_device *device, uint32_t place, struct pauvigre_row *row);

/* ---- the steps: 0 where the step is made, -EAGAIN where it isn't ready (or there is no such frame or target) ----
 *
 * A frame that isn't open any more after a step goes from the rows by itself. A step of one frame may make steps of
 * others ready. After each step that answers 0, whoever waits in a request, a flush or a close looks anew. */

/* Begins the next exposure at this time, in nanoseconds, and exposes the frame: its shutter is to be notified. */
int32_t pauvigre_expose(struct pauvigre_device *device, uint64_t time, uint32_t *frame);

/* A partial result, numbered 1 to 3: what it says beside its number depends on that, the rest is 0. */
struct pauvigre_part {
    uint64_t exposure;  /* 2: in nanoseconds */
    uint64_t timestamp; /* 3: the time of the shutter, in nanoseconds */
    uint32_t number;
    uint32_t level;     /* 1 */
    uint32_t iso;       /* 2 */
    uint8_t pattern;    /* 1 */
};

/* Gives the next partial result of a frame. */
int32_t pauvigre_send_part(struct pauvigre_device *device, uint32_t frame, struct pauvigre_part *part);

/* Draws the picture of a target, whose acquire fence was waited for, into memory of the device's own. */
int32_t pauvigre_fill(struct pauvigre_device *device, uint32_t frame, uint8_t stream);

/* A good buffer that comes back, with the SHA-256 of its picture. */
struct pauvigre_delivered {
    uint32_t buffer;
    uint8_t digest[32];
};

/* Writes the picture of a target to the framework's memory, of the picture's length: the buffer comes back good. RAW16
 * has 2 bytes a pixel, YUV 1.5 (planes Y, Cb, Cr without padding). -EAGAIN also where the length is another one. */
int32_t pauvigre_deliver(struct pauvigre_device *device, uint32_t frame, uint8_t stream, uint8_t *memory,
                         size_t length, struct pauvigre_delivered *delivered);

/* An error to be notified; the kinds are camera3.h's CAMERA3_MSG_ERROR_DEVICE, _REQUEST, _RESULT, _BUFFER. */
enum {
    PAUVIGRE_ERROR_DEVICE = 1,  /* the device failed; frame and stream are 0 */
    PAUVIGRE_ERROR_REQUEST = 2, /* the capture of the frame failed whole */
    PAUVIGRE_ERROR_RESULT = 3,  /* the metadata of the frame that didn't come won't come */
    PAUVIGRE_ERROR_BUFFER = 4   /* the buffer of the frame for the stream won't be filled */
};

struct pauvigre_error {
    uint32_t kind;
    uint32_t frame;
    uint8_t stream; /* of PAUVIGRE_ERROR_BUFFER alone; 0 else */
};

/* Tells the error that is due at a frame. */
int32_t pauvigre_tell_error(struct pauvigre_device *device, uint32_t frame, struct pauvigre_error *error);

/* Gives the framework's buffer for a target back in error, once its error was told. Its release fence is the acquire
 * fence where nobody waited for that. */
int32_t pauvigre_return_failed(struct pauvigre_device *device, uint32_t frame, uint8_t stream, uint32_t *buffer);

#ifdef __cplusplus
}
#endif

#endif
