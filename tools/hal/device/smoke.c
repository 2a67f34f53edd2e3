/*
 * Three frames from the proved device in C: opens it, configures a YUV stream of 40x30, takes each shutter, metadata
 * result and picture, and closes. Writes the picture of frame N to frame-N.yuv, and for each a line with the digest
 * that the device told, as sha256sum -c reads it. Status 0: all came, and no call behind the configuration took memory
 * (linked with --wrap=malloc,--wrap=realloc).
 */
#include "pauvigre_device.h"

#include <errno.h>
#include <stdio.h>
#include <stdlib.h>

#define FRAMES 3
#define BYTES (40 * 30 * 3 / 2)

/* What came of the frames. */
struct tally {
    int shutters;
    int parts;
    int pictures;
};

/* How often the library asked for memory. */
static int asked;

void *__real_malloc(size_t size);
void *__real_realloc(void *memory, size_t size);
void *__wrap_malloc(size_t size);
void *__wrap_realloc(void *memory, size_t size);

void *__wrap_malloc(size_t size)
{
    asked++;
    return __real_malloc(size);
}

void *__wrap_realloc(void *memory, size_t size)
{
    asked++;
    return __real_realloc(memory, size);
}

static void want(int is_so, const char *what)
{
    if (!is_so) {
        fprintf(stderr, "smoke: %s\n", what);
        exit(1);
    }
}

static void set_up(struct pauvigre_device *device)
{
    const struct pauvigre_profile plain = {6, 3, 4};
    const struct pauvigre_stream stream = {.format = 0x23, .width = 40, .height = 30, .input = false};
    struct pauvigre_max_buffers most;

    want(pauvigre_initialize(device) == -ENODEV, "a call on a handle that isn't open");
    want(pauvigre_open(device, &plain, (const struct pauvigre_fault[1]){{0}}, 0) == 0, "open");
    want(pauvigre_open(device, &plain, (const struct pauvigre_fault[1]){{0}}, 0) == -EINVAL, "open again");
    want(pauvigre_initialize(device) == 0, "initialize");
    want(pauvigre_configure(device, &stream, 1, &most) == 0, "configure");
    want(most.of[0] == 4 && most.of[1] == 0, "max_buffers");
    want(asked > 0, "memory at the opening");
    asked = 0;
}

static void ask(struct pauvigre_device *device)
{
    const struct pauvigre_settings ramp = {.exposure = 10000000, .iso = 100, .level = 0, .pattern = 2};

    for (uint32_t frame = 0; frame < FRAMES; frame++) {
        const struct pauvigre_target target = {.stream = 0, .buffer = 100 + frame};

        want(pauvigre_request(device, frame, &ramp, &target, 1) == 0, "request");
    }
}

static void tell_picture(const uint8_t *memory, uint32_t frame, const uint8_t *digest)
{
    char name[32];
    FILE *file;

    snprintf(name, sizeof name, "frame-%u.yuv", (unsigned)frame);
    file = fopen(name, "wb");
    want(file != NULL && fwrite(memory, 1, BYTES, file) == BYTES && fclose(file) == 0, "writing a picture");
    for (int at = 0; at < 32; at++) {
        printf("%02x", digest[at]);
    }
    printf("  %s\n", name);
}

static void take_picture(struct pauvigre_device *device, uint32_t frame, struct tally *tally)
{
    static uint8_t memory[BYTES];
    struct pauvigre_delivered delivered;

    want(pauvigre_deliver(device, frame, 0, memory, BYTES, &delivered) == 0, "deliver");
    want(delivered.buffer == 100 + frame, "the buffer's number");
    tell_picture(memory, frame, delivered.digest);
    tally->pictures++;
}

/* Makes each step of a frame that is ready. */
static void step(struct pauvigre_device *device, const struct pauvigre_row *row, struct tally *tally)
{
    struct pauvigre_part part;
    uint32_t frame;

    if (row->may_expose) {
        want(pauvigre_expose(device, 1000000000u + row->frame * 33333333u, &frame) == 0, "expose");
        want(frame == row->frame, "the frame exposed");
        tally->shutters++;
    } else if (row->may_send_part) {
        want(pauvigre_send_part(device, row->frame, &part) == 0, "send_part");
        tally->parts++;
    } else if (row->targets[0].may_fill) {
        want(pauvigre_fill(device, row->frame, 0) == 0, "fill");
    } else if (row->targets[0].may_deliver) {
        take_picture(device, row->frame, tally);
    }
}

int main(void)
{
    struct pauvigre_device device = {0};
    struct pauvigre_row row;
    struct tally tally = {0};

    set_up(&device);
    ask(&device);
    while (pauvigre_row_at(&device, 0, &row) == 0) {
        for (uint32_t place = 0; pauvigre_row_at(&device, place, &row) == 0; place++) {
            step(&device, &row, &tally);
        }
    }
    want(tally.shutters == FRAMES && tally.parts == 3 * FRAMES && tally.pictures == FRAMES, "what came");
    want(asked == 0, "no memory behind the configuration");
    want(pauvigre_begin_close(&device) == 0, "begin_close");
    want(pauvigre_close(&device) == 0 && device.at == NULL, "close");
    want(pauvigre_close(&device) == -ENODEV, "close again");
    return 0;
}
