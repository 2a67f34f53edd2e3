/*
 * hal_drive: plays a camera service against the shared object of a camera HAL, through the tap. A script says which
 * calls it makes (README.md has its lines). It owns streams, buffers, fences and settings, and is a correct framework:
 * it waits where the header asks for it, unless a word of the script says that a rule is to be broken.
 */
#ifndef DRIVE_H
#define DRIVE_H

#include "buffer_file.h"
#include "hal_tap.h"

#include <hardware/camera3.h>
#include <hardware/camera_common.h>
#include <pthread.h>
#include <stdbool.h>
#include <stdint.h>

#define DRIVE_MOST_STREAMS 16
#define DRIVE_MOST_BUFFERS 256
#define DRIVE_MOST_TARGETS 16
#define DRIVE_TEMPLATES 16
#define DRIVE_PATIENCE_MS 3000

/* ---- buffers (buffer_file.h), and a stand-in for the gralloc module (drive_buffers.c) */

struct drive_buffer {
    buffer_handle_t handle; /* &handle is what the camera is given */
    int stream;
    bool held; /* by the request */
    uint32_t frame;
    int release;        /* it may be used again when this is signalled, -1 at once */
    int signaller;      /* the right to signal its acquire fence, -1 none */
    uint64_t signal_at; /* microseconds of the clock, 0: not by itself */
    uint64_t used;      /* the later the greater */
};

/* The module that a HAL is opened with: opens the stand-in for gralloc, and else what the HAL's own does. */
struct drive_module {
    hw_module_t common;
    hw_module_methods_t methods;
    const camera_module_t *camera;
};
void drive_module_fill(struct drive_module *module, const camera_module_t *camera);

/* ---- requests that the camera has */

struct drive_request {
    uint32_t frame;
    int count;
    struct drive_buffer *buffers[DRIVE_MOST_TARGETS];
    bool back[DRIVE_MOST_TARGETS];
    bool accepted, metadata_ended;
    struct drive_request *next;
};

struct drive_stream {
    bool defined, configured;
    camera3_stream_t stream;
};

/* A command that runs on a thread of its own. */
struct drive_later;

struct drive {
    camera3_callback_ops_t callbacks;
    hal_tap *tap;
    void *library;
    camera_module_t *module;
    struct drive_module stand_in;
    int partials;
    int32_t jpeg_size;
    const camera_metadata_t *characteristics;
    camera_metadata_t *own_settings; /* where no template is known */
    const char *pictures;            /* the folder for good pictures, or NULL */
    bool no_env;                     /* `env` lines are left out */
    buffer_handle_t null_handle;

    pthread_mutex_t flushes; /* a correct framework makes one flush at a time */
    pthread_mutex_t lock;    /* of what follows; not held while the camera is entered */
    pthread_cond_t changed;
    camera3_device_t *device; /* stays after a close, for scripts that call then */
    bool opened, dead, lost;
    bool initialized, unready;         /* since the opening: an initialize was accepted; one was refused, and none accepted */
    bool has_streams, refused_streams; /* a configuration stands; one was refused since the opening */
    struct drive_stream streams[DRIVE_MOST_STREAMS];
    struct drive_buffer buffers[DRIVE_MOST_BUFFERS];
    int buffer_count;
    uint64_t uses;
    struct drive_request *requests;
    uint32_t next_frame;
    unsigned int since_settings; /* requests since the last settings; 0: settings are due */
    int template_id;
    const camera_metadata_t *settings[DRIVE_TEMPLATES];

    pthread_t signaller;
    bool signalling;
    struct drive_later *laters; /* of the script's thread alone */
};

/* What a request is to be; all zero but for fence_ms, it is a plain one without a target. */
enum drive_settings { DRIVE_AS_DUE, DRIVE_WITH_SETTINGS, DRIVE_SAME };
#define DRIVE_NO_FENCE (-2)
#define DRIVE_NEVER (-1)

struct drive_asked {
    int count;
    int streams[DRIVE_MOST_TARGETS];
    enum drive_settings settings;
    int fence_ms; /* signalled after so long; DRIVE_NO_FENCE, DRIVE_NEVER */
    bool has_frame;
    uint32_t frame;
    bool over, held, no_handle, bad_settings, null, anyway;
};

/* A line of a script. */
enum drive_kind {
    DRIVE_ENV,
    DRIVE_NOTE,
    DRIVE_STREAM,
    DRIVE_OPEN,
    DRIVE_INIT,
    DRIVE_TEMPLATE,
    DRIVE_USE,
    DRIVE_CONFIGURE,
    DRIVE_REQUEST,
    DRIVE_SLEEP,
    DRIVE_DRAIN,
    DRIVE_FLUSH,
    DRIVE_JOIN,
    DRIVE_CLOSE
};

struct drive_command {
    enum drive_kind kind;
    int line;
    int later_ms; /* on a thread of its own after so long; -1: at once */
    int number;   /* of a stream, a template, of requests; milliseconds */
    int gap_ms;
    uint32_t mode;
    bool anyway;
    bool largest; /* a stream's size: the largest that the camera has for its format */
    struct drive_asked asked;
    camera3_stream_t stream;
    char name[64], text[256];
    char source[128]; /* its words, as far as they fit */
    struct drive_command *next;
};

/* ---- the parts */

uint64_t drive_clock(void); /* microseconds */
void drive_sleep(unsigned int ms);

/* Loads the HAL, finds its camera, and begins the log. 0, or a message was written (drive_main.c). */
int drive_start(struct drive *drive, const char *library, const char *log);
void drive_end(struct drive *drive);

/* A comment of the log: the step of the script that the command is can't be made, and why (drive_play.c). */
void drive_note_step(struct drive *drive, const struct drive_command *command, const char *why);

/* The calls; what the camera answered, DRIVE_NOT_MADE where the call wasn't made (drive_calls.c). */
#define DRIVE_NOT_MADE 1
int drive_open(struct drive *drive);
int drive_init(struct drive *drive);
int drive_template(struct drive *drive, int template_id);
int drive_configure(struct drive *drive, const struct drive_asked *asked, uint32_t mode, bool anyway);
int drive_flush(struct drive *drive);
void drive_close(struct drive *drive);

/* The camera told of its failure, or answered ENODEV. */
bool drive_has_failed(struct drive *drive);

/* Makes a request (drive_requests.c). `why` is NULL, or tells why the camera didn't take it. False: the camera keeps back
 * what it needs. */
bool drive_request(struct drive *drive, const struct drive_asked *asked, const char **why);

/* Waits until the camera has no request any more. False: it still has. */
bool drive_drain(struct drive *drive, unsigned int ms);

/* The camera keeps back what the script needs: it ends here. */
void drive_give_up(struct drive *drive, const char *why);

/* The camera has a request; with the lock taken (drive_book.c). */
bool drive_is_busy(const struct drive *drive);
struct drive_request *drive_book(struct drive *drive, const camera3_capture_request_t *request,
                                 struct drive_buffer **buffers);
void drive_book_accepted(struct drive *drive, struct drive_request *request);
void drive_book_refused(struct drive *drive, struct drive_request *request);
void drive_forget_requests(struct drive *drive);
void drive_fill_callbacks(struct drive *drive);

/* Waits on `changed`, at most until the time. False: the time is over. With the lock taken. */
bool drive_wait(struct drive *drive, uint64_t until);

/* The bytes of a stream's picture; writes one that came back good, where a folder is named (drive_pictures.c). */
size_t drive_picture_size(const struct drive *drive, const camera3_stream_t *stream);
void drive_write_picture(const struct drive *drive, const struct drive_buffer *buffer, uint32_t frame);

/* Fences (drive_fences.c); with the lock taken. A new acquire fence of the buffer: the camera's descriptor, or -1. */
int drive_fence_new(struct drive *drive, struct drive_buffer *buffer, int after_ms);
void drive_fence_drop(struct drive_buffer *buffer);
bool drive_is_signalled(int fence);
int drive_start_signaller(struct drive *drive);
void drive_stop_signaller(struct drive *drive);

/* Reads a script; NULL, and a message was written, where that can't be done (drive_script.c). */
struct drive_command *drive_read(const char *path);
void drive_free_script(struct drive_command *script);

/* Plays it (drive_play.c). False: the camera kept back what it needs. */
bool drive_play(struct drive *drive, const struct drive_command *script);

/* Sets what `env` lines say before any other; the HAL is loaded behind that. */
void drive_set_environment(const struct drive_command *script);

/* The words of an answer that isn't 0, for people. */
const char *drive_words_of(int answer);

/* Writes the script of a seed: what a correct framework may do (drive_random.c). */
void drive_write_random(uint64_t seed);

#endif
