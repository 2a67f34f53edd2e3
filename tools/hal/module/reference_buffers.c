/* The buffers that the device has: whose they are, where their memory is, and their acquire fences. */
#include "reference_camera.h"

#include "buffer_file.h"

static bool has_number(const struct reference_camera *camera, uint32_t number)
{
    for (size_t i = 0; i < REFERENCE_BUFFERS; i++)
        if (camera->buffers[i].there && camera->buffers[i].number == number)
            return true;
    return false;
}

uint32_t reference_number_of(struct reference_camera *camera, buffer_handle_t *handle)
{
    for (size_t i = 0; i < REFERENCE_BUFFERS; i++)
        if (camera->buffers[i].there && camera->buffers[i].handle == handle)
            return camera->buffers[i].number;
    while (has_number(camera, camera->next_number))
        camera->next_number++;
    return camera->next_number++;
}

void reference_keep(struct reference_camera *camera, const struct reference_buffer *buffer)
{
    for (size_t i = 0; i < REFERENCE_BUFFERS; i++)
        if (!camera->buffers[i].there) {
            camera->buffers[i] = *buffer;
            camera->buffers[i].there = true;
            return;
        }
}

struct reference_buffer *reference_buffer_at(struct reference_camera *camera, uint32_t frame, uint8_t place)
{
    for (size_t i = 0; i < REFERENCE_BUFFERS; i++) {
        struct reference_buffer *buffer = &camera->buffers[i];

        if (buffer->there && buffer->frame == frame && buffer->place == place)
            return buffer;
    }
    return NULL;
}

bool reference_is_first(const struct reference_camera *camera, const struct reference_buffer *buffer)
{
    for (size_t i = 0; i < REFERENCE_BUFFERS; i++) {
        const struct reference_buffer *other = &camera->buffers[i];

        if (other->there && other->place == buffer->place && other->frame < buffer->frame)
            return false;
    }
    return true;
}

void reference_note_exposed(struct reference_camera *camera, uint32_t frame, uint64_t until)
{
    for (size_t i = 0; i < REFERENCE_BUFFERS; i++)
        if (camera->buffers[i].there && camera->buffers[i].frame == frame)
            camera->buffers[i].exposed_until = until;
}

camera3_stream_buffer_t reference_give_back(struct reference_buffer *buffer, int status, int fence)
{
    camera3_stream_buffer_t back = {
        .stream = buffer->stream,
        .buffer = buffer->handle,
        .status = status,
        .acquire_fence = -1,
        .release_fence = fence,
    };

    buffer_file_unmap(buffer->memory, buffer->length);
    buffer->there = false;
    return back;
}
