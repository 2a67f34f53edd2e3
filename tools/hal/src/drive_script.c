/* Reads a script: each line into a command, before anything is played. */
#include "drive.h"

#include <errno.h>
#include <stdio.h>
#include <stdlib.h>
#include <string.h>

#define MOST_WORDS 40

/* The words of a line, and which one is next. */
struct words {
    char *word[MOST_WORDS];
    int count, next;
};

static const char *peek(const struct words *words)
{
    return words->next < words->count ? words->word[words->next] : NULL;
}

/* The next word, if it is this one. */
static bool takes(struct words *words, const char *word)
{
    const char *next = peek(words);

    if (next == NULL || strcmp(next, word) != 0)
        return false;
    words->next++;
    return true;
}

/* The next word as a number, from 0 to most. */
static bool take_number(struct words *words, long most, int *number)
{
    const char *word = peek(words);
    char *end;
    long value;

    if (word == NULL || *word < '0' || *word > '9')
        return false;
    errno = 0;
    value = strtol(word, &end, 10);
    if (errno != 0 || *end != '\0' || value > most)
        return false;
    *number = (int)value;
    words->next++;
    return true;
}

/* ---- the words of one command each */

/* S FORMAT WxH|largest [rotate D] [input|bidirectional] */
static bool read_stream(struct words *words, struct drive_command *command)
{
    static const struct {
        const char *name;
        int format;
    } formats[] = {
        { "YUV", HAL_PIXEL_FORMAT_YCbCr_420_888 },
        { "IMPL", HAL_PIXEL_FORMAT_IMPLEMENTATION_DEFINED },
        { "BLOB", HAL_PIXEL_FORMAT_BLOB },
        { "RAW16", HAL_PIXEL_FORMAT_RAW16 },
    };
    camera3_stream_t *stream = &command->stream;
    const char *format, *size;
    int degrees = 0;

    if (!take_number(words, DRIVE_MOST_STREAMS - 1, &command->number) || words->next + 2 > words->count)
        return false;
    format = words->word[words->next++];
    size = words->word[words->next++];
    stream->format = format[0] == 'H' ? (int)strtoul(format + 1, NULL, 16) : -1;
    for (size_t i = 0; i < sizeof(formats) / sizeof(formats[0]); i++)
        if (strcmp(format, formats[i].name) == 0)
            stream->format = formats[i].format;
    command->largest = strcmp(size, "largest") == 0;
    if (stream->format == -1 || (!command->largest && sscanf(size, "%ux%u", &stream->width, &stream->height) != 2))
        return false;
    if (takes(words, "rotate") && !take_number(words, 270, &degrees))
        return false;
    stream->rotation = degrees / 90;
    if (takes(words, "input"))
        stream->stream_type = CAMERA3_STREAM_INPUT;
    else if (takes(words, "bidirectional"))
        stream->stream_type = CAMERA3_STREAM_BIDIRECTIONAL;
    stream->physical_camera_id = "";
    return true;
}

/* S .., `none`, or `null` */
static bool read_streams(struct words *words, struct drive_asked *asked)
{
    if (takes(words, "none"))
        return true;
    asked->null = takes(words, "null");
    while (asked->count < DRIVE_MOST_TARGETS
           && take_number(words, DRIVE_MOST_STREAMS - 1, &asked->streams[asked->count]))
        asked->count++;
    return asked->null != (asked->count != 0);
}

static bool read_fence(struct words *words, int *ms)
{
    *ms = DRIVE_NEVER;
    return takes(words, "never") || take_number(words, 60000, ms);
}

/* What a request has besides its streams. */
static bool read_request_words(struct words *words, struct drive_command *command)
{
    struct drive_asked *asked = &command->asked;
    int frame = 0;

    while (peek(words) != NULL) {
        if (takes(words, "settings"))
            asked->settings = DRIVE_WITH_SETTINGS;
        else if (takes(words, "same"))
            asked->settings = DRIVE_SAME;
        else if (takes(words, "over"))
            asked->over = true;
        else if (takes(words, "anyway"))
            asked->anyway = true;
        else if (takes(words, "held"))
            asked->held = true;
        else if (takes(words, "nohandle"))
            asked->no_handle = true;
        else if (takes(words, "badsettings"))
            asked->bad_settings = true;
        else if (takes(words, "frame") && take_number(words, INT32_MAX, &frame))
            asked->has_frame = true;
        else if (takes(words, "gap") && take_number(words, 60000, &command->gap_ms))
            continue;
        else if (!takes(words, "fence") || !read_fence(words, &asked->fence_ms))
            return false;
    }
    asked->frame = (uint32_t)frame;
    return true;
}

static bool read_request(struct words *words, struct drive_command *command)
{
    command->number = 1;
    return read_streams(words, &command->asked) && read_request_words(words, command);
}

static bool read_burst(struct words *words, struct drive_command *command)
{
    return take_number(words, 100000, &command->number) && read_streams(words, &command->asked)
           && read_request_words(words, command);
}

static bool read_configure(struct words *words, struct drive_command *command)
{
    int mode = 0;

    if (!read_streams(words, &command->asked))
        return false;
    if (takes(words, "mode") && !take_number(words, INT32_MAX, &mode))
        return false;
    command->mode = (uint32_t)mode;
    command->anyway = takes(words, "anyway");
    return true;
}

static bool read_number(struct words *words, struct drive_command *command)
{
    return take_number(words, INT32_MAX, &command->number);
}

static bool read_template(struct words *words, struct drive_command *command)
{
    return take_number(words, DRIVE_TEMPLATES - 1, &command->number);
}

static bool read_drain(struct words *words, struct drive_command *command)
{
    command->number = DRIVE_PATIENCE_MS;
    return peek(words) == NULL || take_number(words, INT32_MAX, &command->number);
}

static bool read_close(struct words *words, struct drive_command *command)
{
    command->anyway = takes(words, "anyway");
    return true;
}

static bool read_nothing(struct words *words, struct drive_command *command)
{
    (void)words, (void)command;
    return true;
}

/* The words that are left, one space between two. False: there are none. */
static bool take_rest(struct words *words, struct drive_command *command)
{
    size_t length = 0;

    while (peek(words) != NULL && length < sizeof(command->text))
        length += (size_t)snprintf(command->text + length, sizeof(command->text) - length, "%s%s",
                                   length == 0 ? "" : " ", words->word[words->next++]);
    return length != 0;
}

static bool read_environment(struct words *words, struct drive_command *command)
{
    if (peek(words) == NULL)
        return false;
    snprintf(command->name, sizeof(command->name), "%s", words->word[words->next++]);
    return take_rest(words, command);
}

/* ---- lines */

static const struct {
    const char *name;
    enum drive_kind kind;
    bool (*read)(struct words *, struct drive_command *);
} forms[] = {
    { "env", DRIVE_ENV, read_environment },     { "note", DRIVE_NOTE, take_rest },
    { "stream", DRIVE_STREAM, read_stream },    { "open", DRIVE_OPEN, read_nothing },
    { "init", DRIVE_INIT, read_nothing },       { "template", DRIVE_TEMPLATE, read_template },
    { "use", DRIVE_USE, read_template },        { "configure", DRIVE_CONFIGURE, read_configure },
    { "request", DRIVE_REQUEST, read_request }, { "burst", DRIVE_REQUEST, read_burst },
    { "sleep", DRIVE_SLEEP, read_number },      { "drain", DRIVE_DRAIN, read_drain },
    { "flush", DRIVE_FLUSH, read_nothing },     { "join", DRIVE_JOIN, read_nothing },
    { "close", DRIVE_CLOSE, read_close },
};

static bool read_command(struct words *words, struct drive_command *command)
{
    command->later_ms = -1;
    command->asked.fence_ms = DRIVE_NO_FENCE;
    if (takes(words, "later") && !take_number(words, 60000, &command->later_ms))
        return false;
    for (size_t i = 0; i < sizeof(forms) / sizeof(forms[0]); i++) {
        if (!takes(words, forms[i].name))
            continue;
        command->kind = forms[i].kind;
        return forms[i].read(words, command) && peek(words) == NULL;
    }
    return false;
}

static struct words words_of(char *line)
{
    struct words words = { .count = 0, .next = 0 };
    char *rest = NULL, *comment = strchr(line, '#');

    if (comment != NULL)
        *comment = '\0';
    for (char *word = strtok_r(line, " \t\r\n", &rest); word != NULL && words.count < MOST_WORDS;
         word = strtok_r(NULL, " \t\r\n", &rest))
        words.word[words.count++] = word;
    return words;
}

void drive_free_script(struct drive_command *script)
{
    while (script != NULL) {
        struct drive_command *next = script->next;

        free(script);
        script = next;
    }
}

/* One line: puts its command behind the last. False: it has none of the forms, or there is no memory. */
static bool read_line(char *line, int number, struct drive_command ***last)
{
    struct words words = words_of(line);
    struct drive_command *command;
    size_t length = 0;

    if (words.count == 0)
        return true;
    command = calloc(1, sizeof(*command));
    if (command == NULL)
        return false;
    **last = command;
    *last = &command->next;
    command->line = number;
    for (int i = 0; i < words.count && length < sizeof(command->source); i++)
        length += (size_t)snprintf(command->source + length, sizeof(command->source) - length, "%s%s", i == 0 ? "" : " ",
                                   words.word[i]);
    return read_command(&words, command);
}

struct drive_command *drive_read(const char *path)
{
    struct drive_command *script = NULL, **last = &script;
    FILE *file = fopen(path, "r");
    char line[1024];
    int number = 0;

    if (file == NULL) {
        fprintf(stderr, "hal_drive: %s: %s\n", path, strerror(errno));
        return NULL;
    }
    while (fgets(line, sizeof(line), file) != NULL) {
        if (read_line(line, ++number, &last))
            continue;
        fprintf(stderr, "hal_drive: %s:%d: this line has none of the forms\n", path, number);
        drive_free_script(script);
        fclose(file);
        return NULL;
    }
    fclose(file);
    if (script == NULL)
        fprintf(stderr, "hal_drive: %s: no command\n", path);
    return script;
}
