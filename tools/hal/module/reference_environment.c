/* What the environment asks for: faults, in the words of a script's `fault` lines, and whether frames wait. */
#include "reference_camera.h"

#include <stdio.h>
#include <stdlib.h>
#include <string.h>

#define MOST_WORDS 3

/* The words of one fault. */
struct fault_words {
    const char *word[MOST_WORDS];
    size_t length[MOST_WORDS];
    int count;
};

/* Takes the next fault's words off the text, up to a comma or the end. False: they are too many. */
static bool take_words(const char **text, struct fault_words *words)
{
    words->count = 0;
    for (*text += strspn(*text, " "); **text != '\0' && **text != ','; *text += strspn(*text, " ")) {
        size_t length = strcspn(*text, " ,");

        if (words->count == MOST_WORDS)
            return false;
        words->word[words->count] = *text;
        words->length[words->count++] = length;
        *text += length;
    }
    return true;
}

/* A decimal number from 0 to most, without sign and leading zeros. */
static bool read_number(const char *word, size_t length, uint64_t most, uint64_t *number)
{
    *number = 0;
    for (size_t i = 0; i < length; i++) {
        if (word[i] < '0' || word[i] > '9')
            return false;
        *number = *number * 10 + (uint64_t)(word[i] - '0');
        if (*number > most)
            return false;
    }
    return length != 0 && (length == 1 || word[0] != '0');
}

static bool read_fault(const struct fault_words *words, struct pauvigre_fault *fault)
{
    static const struct {
        const char *name;
        uint32_t kind;
        int numbers;
    } kinds[] = {
        { "request", PAUVIGRE_FAULT_REQUEST, 1 },
        { "result", PAUVIGRE_FAULT_RESULT, 1 },
        { "buffer", PAUVIGRE_FAULT_BUFFER, 2 },
        { "device", PAUVIGRE_FAULT_DEVICE, 1 },
    };
    uint64_t frame, stream = 0;

    for (size_t i = 0; i < sizeof(kinds) / sizeof(kinds[0]); i++) {
        if (words->count != kinds[i].numbers + 1 || strlen(kinds[i].name) != words->length[0]
            || memcmp(words->word[0], kinds[i].name, words->length[0]) != 0)
            continue;
        if (!read_number(words->word[1], words->length[1], UINT32_MAX, &frame)
            || (kinds[i].numbers == 2 && !read_number(words->word[2], words->length[2], UINT8_MAX, &stream)))
            return false;
        *fault = (struct pauvigre_fault){ kinds[i].kind, (uint32_t)frame, (uint8_t)stream };
        return true;
    }
    return false;
}

static void say_malformed(const char *fault)
{
    fprintf(stderr,
            "libpauvigre_hal: PAUVIGRE_FAULTS: '%.*s' is none of 'request N', 'result N', 'buffer N S' and 'device N', "
            "with N to %u and S to %u; they are separated by commas\n",
            (int)strcspn(fault, ","), fault, UINT32_MAX, UINT8_MAX);
}

/* One fault, or several separated by commas. */
static bool read_faults(const char *text, struct reference_options *options)
{
    for (;;) {
        const char *from = text;
        struct fault_words words;

        if (options->fault_count == REFERENCE_FAULTS) {
            fprintf(stderr, "libpauvigre_hal: PAUVIGRE_FAULTS: more than %d faults\n", REFERENCE_FAULTS);
            return false;
        }
        if (!take_words(&text, &words) || !read_fault(&words, &options->faults[options->fault_count])) {
            say_malformed(from);
            return false;
        }
        options->fault_count++;
        if (*text == '\0')
            return true;
        text++;
    }
}

bool reference_read_options(struct reference_options *options)
{
    const char *fast = getenv("PAUVIGRE_FAST"), *faults = getenv("PAUVIGRE_FAULTS");

    *options = (struct reference_options){ .frame_time = REFERENCE_FRAME_TIME };
    if (fast != NULL && strcmp(fast, "1") == 0)
        options->frame_time = 0;
    else if (fast != NULL && strcmp(fast, "0") != 0) {
        fprintf(stderr, "libpauvigre_hal: PAUVIGRE_FAST: '%s' is neither 0 nor 1\n", fast);
        return false;
    }
    return faults == NULL || *faults == '\0' || read_faults(faults, options);
}
