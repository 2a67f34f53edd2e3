/* The thread that waits for acquire fences and exposures, and has the pictures drawn. */
#include "reference_camera.h"

#include <poll.h>
#include <time.h>
#include <unistd.h>

/* What is waited for: fences, the event that ends the waiting, and a time (0: none). */
struct watched {
    struct pollfd files[REFERENCE_BUFFERS + 1];
    nfds_t count;
    uint64_t until;
};

/* A descriptor that can't be polled is no fence; nothing is gained by waiting for it. */
static bool is_signalled(int fence)
{
    struct pollfd asked = { fence, POLLIN, 0 };

    return poll(&asked, 1, 0) == 1;
}

/* The picture may be drawn: its frame is exposed, and the acquire fence is signalled. What it lacks is watched else. */
static bool may_draw(struct reference_buffer *buffer, struct watched *watched)
{
    if (reference_clock() < buffer->exposed_until) {
        if (watched->until == 0 || buffer->exposed_until < watched->until)
            watched->until = buffer->exposed_until;
        return false;
    }
    if (buffer->fence >= 0 && !is_signalled(buffer->fence)) {
        watched->files[watched->count++] = (struct pollfd){ buffer->fence, POLLIN, 0 };
        return false;
    }
    return true;
}

static bool fill(struct reference_camera *camera, const struct pauvigre_row *row, uint8_t place,
                 struct watched *watched)
{
    struct reference_buffer *buffer = reference_buffer_at(camera, row->frame, place);

    if (!row->targets[place].may_fill || buffer == NULL || !may_draw(buffer, watched)
        || pauvigre_fill(&camera->proved, row->frame, place) != 0)
        return false;
    if (buffer->fence >= 0)
        close(buffer->fence);
    buffer->fence = -1;
    return true;
}

/* Has the first picture drawn that may be. */
static bool fill_one(struct reference_camera *camera, struct watched *watched)
{
    struct pauvigre_row row;

    for (uint32_t i = 0; pauvigre_row_at(&camera->proved, i, &row) == 0; i++)
        for (uint8_t place = 0; place < PAUVIGRE_STREAMS; place++)
            if (fill(camera, &row, place, watched))
                return true;
    return false;
}

/* Until a fence is signalled, the time has come, or anything changed. */
static void watch(struct reference_camera *camera, struct watched *watched)
{
    uint64_t now = reference_clock(), left = watched->until > now ? watched->until - now : 0, told;
    struct timespec time = { (time_t)(left / 1000000000), (long)(left % 1000000000) };

    watched->files[watched->count++] = (struct pollfd){ camera->wake, POLLIN, 0 };
    camera->polling = true;
    pthread_mutex_unlock(&camera->lock);
    ppoll(watched->files, watched->count, watched->until == 0 ? NULL : &time, NULL);
    (void)!read(watched->files[watched->count - 1].fd, &told, sizeof(told));
    pthread_mutex_lock(&camera->lock);
    camera->polling = false;
    camera->polls++;
    pthread_cond_broadcast(&camera->changed);
}

int reference_take_fence(struct reference_camera *camera, struct reference_buffer *buffer)
{
    unsigned int polls = camera->polls;
    int fence = buffer->fence;

    buffer->fence = -1;
    if (fence < 0)
        return -1;
    reference_tell_changed(camera);
    while (camera->polling && camera->polls == polls)
        reference_wait(camera, 0);
    return fence;
}

void *reference_fill_buffers(void *argument)
{
    struct reference_camera *camera = argument;

    pthread_mutex_lock(&camera->lock);
    while (!camera->stopping) {
        struct watched watched = { .count = 0 };

        if (fill_one(camera, &watched))
            reference_tell_changed(camera);
        else
            watch(camera, &watched);
    }
    pthread_mutex_unlock(&camera->lock);
    return NULL;
}
