/* The numbers that a log gives to streams, buffers and fences. */
#ifndef TAP_NAMES_H
#define TAP_NAMES_H

#include "tap_map.h"

#include <hardware/camera3.h>

/* An acquire fence of a target that isn't back. A copy of it is kept open, so that it can be told from others. */
struct tap_fence {
    uint32_t frame;
    uint32_t buffer;
    uint32_t number;
    int given; /* the descriptor that the device was given */
    int kept;  /* the copy */
};

/* All zero: nothing is known. */
struct tap_names {
    struct tap_map streams; /* by camera3_stream_t */
    struct tap_map handles; /* by buffer_handle_t, the handle itself */
    struct tap_map places;  /* of buffer_handle_t *, the place of a handle: the number that its handle had last */
    struct tap_map bare;    /* of a stream, for targets without a handle */
    uint32_t next_stream;
    uint32_t next_buffer;
    uint32_t next_fence;
    struct tap_fence *fences;
    size_t fence_count;
    size_t fence_room;
};

#define TAP_NO_FENCE (-1)
#define TAP_FOREIGN_FENCE (-2)

/* Each gives the number, a new one where there is none. False: no memory. */
bool tap_names_stream(struct tap_names *names, const camera3_stream_t *stream, uint32_t *number);
bool tap_names_target(struct tap_names *names, const camera3_stream_buffer_t *target, uint32_t *number);

/* Gives the number of the target's acquire fence, TAP_NO_FENCE where it has none, and remembers it. */
bool tap_names_acquire(struct tap_names *names, uint32_t frame, uint32_t buffer, int fence, int64_t *number);

/* The target has no handle. */
bool tap_names_is_bare(const camera3_stream_buffer_t *target);

/* The numbers of what the device names; false where the framework doesn't know it. */
bool tap_names_known_stream(const struct tap_names *names, const camera3_stream_t *stream, uint32_t *number);
bool tap_names_known_buffer(const struct tap_names *names, const camera3_stream_buffer_t *returned, uint32_t *number);

/* The number of the acquire fence that a release fence is; TAP_NO_FENCE, or TAP_FOREIGN_FENCE. */
int64_t tap_names_release(const struct tap_names *names, uint32_t frame, int fence);

/* The buffer is back, the request refused, or all of them gone: their fences aren't kept any more. */
void tap_names_forget_buffer(struct tap_names *names, uint32_t frame, uint32_t buffer);
void tap_names_forget_frame(struct tap_names *names, uint32_t frame);
void tap_names_forget_fences(struct tap_names *names);

void tap_names_free(struct tap_names *names);

#endif
