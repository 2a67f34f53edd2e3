/* What the camera says of itself: the static metadata. Ranges and sizes are the proved device's (docs/FORMATS.md). */
#include "reference_camera.h"

#include <system/camera_metadata.h>

#define WIDTH 160 /* of the sensor */
#define HEIGHT 120
#define BLACK 64
#define WHITE 1023

#define COUNT(list) (sizeof(list) / sizeof((list)[0]))

static const uint8_t level[] = { ANDROID_INFO_SUPPORTED_HARDWARE_LEVEL_LIMITED };
static const uint8_t capabilities[] = { ANDROID_REQUEST_AVAILABLE_CAPABILITIES_READ_SENSOR_SETTINGS };
static const uint8_t facing[] = { ANDROID_LENS_FACING_BACK };
static const uint8_t depth[] = { REFERENCE_DEPTH };
static const uint8_t control_modes[] = { ANDROID_CONTROL_MODE_OFF };
static const uint8_t exposure_modes[] = { ANDROID_CONTROL_AE_MODE_OFF };
static const uint8_t filters[] = { ANDROID_SENSOR_INFO_COLOR_FILTER_ARRANGEMENT_RGGB };
static const uint8_t time_source[] = { ANDROID_SENSOR_INFO_TIMESTAMP_SOURCE_UNKNOWN };
static const int32_t parts[] = { PAUVIGRE_PARTS };
static const int32_t streams[] = { 1, 3, 0 }; /* raw, processed, stalling */
static const int32_t no_input[] = { 0 };
static const int32_t latency[] = { ANDROID_SYNC_MAX_LATENCY_PER_FRAME_CONTROL };
static const int32_t test_patterns[] = { ANDROID_SENSOR_TEST_PATTERN_MODE_OFF };
static const int32_t pixels[] = { WIDTH, HEIGHT };
static const int32_t area[] = { 0, 0, WIDTH, HEIGHT };
static const int32_t black[] = { BLACK, BLACK, BLACK, BLACK };
static const int32_t white[] = { WHITE };
static const int32_t sensitivities[] = { 100, 1600 };
static const int64_t exposures[] = { 100000, 100000000 };

/* The sizes that are offered. */
static const struct {
    int format, width, height;
} offered[] = {
    { HAL_PIXEL_FORMAT_RAW16, WIDTH, HEIGHT },
    { HAL_PIXEL_FORMAT_YCbCr_420_888, WIDTH, HEIGHT },
    { HAL_PIXEL_FORMAT_YCbCr_420_888, WIDTH / 2, HEIGHT / 2 },
    { HAL_PIXEL_FORMAT_YCbCr_420_888, WIDTH / 4, HEIGHT / 4 },
};

static const int32_t request_keys[] = {
    ANDROID_CONTROL_MODE,           ANDROID_SENSOR_EXPOSURE_TIME,
    ANDROID_SENSOR_SENSITIVITY,     ANDROID_SENSOR_TEST_PATTERN_MODE,
    (int32_t)REFERENCE_TAG_PATTERN, (int32_t)REFERENCE_TAG_LEVEL,
};
static const int32_t result_keys[] = {
    ANDROID_SENSOR_EXPOSURE_TIME,   ANDROID_SENSOR_SENSITIVITY,   ANDROID_SENSOR_TIMESTAMP,
    (int32_t)REFERENCE_TAG_PATTERN, (int32_t)REFERENCE_TAG_LEVEL,
};

static const struct {
    uint32_t tag;
    const void *list;
    size_t count;
} entries[] = {
    { ANDROID_CONTROL_AE_AVAILABLE_MODES, exposure_modes, COUNT(exposure_modes) },
    { ANDROID_CONTROL_AVAILABLE_MODES, control_modes, COUNT(control_modes) },
    { ANDROID_INFO_SUPPORTED_HARDWARE_LEVEL, level, COUNT(level) },
    { ANDROID_LENS_FACING, facing, COUNT(facing) },
    { ANDROID_REQUEST_AVAILABLE_CAPABILITIES, capabilities, COUNT(capabilities) },
    { ANDROID_REQUEST_AVAILABLE_REQUEST_KEYS, request_keys, COUNT(request_keys) },
    { ANDROID_REQUEST_AVAILABLE_RESULT_KEYS, result_keys, COUNT(result_keys) },
    { ANDROID_REQUEST_MAX_NUM_INPUT_STREAMS, no_input, COUNT(no_input) },
    { ANDROID_REQUEST_MAX_NUM_OUTPUT_STREAMS, streams, COUNT(streams) },
    { ANDROID_REQUEST_PARTIAL_RESULT_COUNT, parts, COUNT(parts) },
    { ANDROID_REQUEST_PIPELINE_MAX_DEPTH, depth, COUNT(depth) },
    { ANDROID_SENSOR_AVAILABLE_TEST_PATTERN_MODES, test_patterns, COUNT(test_patterns) },
    { ANDROID_SENSOR_BLACK_LEVEL_PATTERN, black, COUNT(black) },
    { ANDROID_SENSOR_INFO_ACTIVE_ARRAY_SIZE, area, COUNT(area) },
    { ANDROID_SENSOR_INFO_COLOR_FILTER_ARRANGEMENT, filters, COUNT(filters) },
    { ANDROID_SENSOR_INFO_EXPOSURE_TIME_RANGE, exposures, COUNT(exposures) },
    { ANDROID_SENSOR_INFO_PIXEL_ARRAY_SIZE, pixels, COUNT(pixels) },
    { ANDROID_SENSOR_INFO_SENSITIVITY_RANGE, sensitivities, COUNT(sensitivities) },
    { ANDROID_SENSOR_INFO_TIMESTAMP_SOURCE, time_source, COUNT(time_source) },
    { ANDROID_SENSOR_INFO_WHITE_LEVEL, white, COUNT(white) },
    { ANDROID_SYNC_MAX_LATENCY, latency, COUNT(latency) },
};

#define MOST_ENTRIES 32
#define MOST_BYTES 1024 /* of all their values */

/* Each offered size with the number behind it, as 64 and as 32 bits. */
static bool add_durations(camera_metadata_t *made, uint32_t tag, int64_t duration)
{
    int64_t list[COUNT(offered)][4];

    for (size_t i = 0; i < COUNT(offered); i++) {
        list[i][0] = offered[i].format;
        list[i][1] = offered[i].width;
        list[i][2] = offered[i].height;
        list[i][3] = duration;
    }
    return add_camera_metadata_entry(made, tag, list, 4 * COUNT(offered)) == 0;
}

static bool add_outputs(camera_metadata_t *made)
{
    int32_t list[COUNT(offered)][4];

    for (size_t i = 0; i < COUNT(offered); i++) {
        list[i][0] = offered[i].format;
        list[i][1] = offered[i].width;
        list[i][2] = offered[i].height;
        list[i][3] = ANDROID_SCALER_AVAILABLE_STREAM_CONFIGURATIONS_OUTPUT;
    }
    return add_camera_metadata_entry(made, ANDROID_SCALER_AVAILABLE_STREAM_CONFIGURATIONS, list, 4 * COUNT(offered))
           == 0;
}

static bool add_all(camera_metadata_t *made)
{
    for (size_t i = 0; i < COUNT(entries); i++)
        if (add_camera_metadata_entry(made, entries[i].tag, entries[i].list, entries[i].count) != 0)
            return false;
    return add_outputs(made) && add_durations(made, ANDROID_SCALER_AVAILABLE_MIN_FRAME_DURATIONS, REFERENCE_FRAME_TIME)
           && add_durations(made, ANDROID_SCALER_AVAILABLE_STALL_DURATIONS, 0);
}

camera_metadata_t *reference_characteristics(void)
{
    camera_metadata_t *made = allocate_camera_metadata(MOST_ENTRIES, MOST_BYTES);

    if (made == NULL || add_all(made))
        return made;
    free_camera_metadata(made);
    return NULL;
}
