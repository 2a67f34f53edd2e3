/* Metadata that goes to and fro with requests: settings, the default ones of templates, and results in parts. */
#include "reference_camera.h"

#include <system/camera_metadata.h>

#define MOST_ENTRIES 8
#define NO_PATTERN UINT8_MAX /* which the device refuses */

/* ---- vendor tags */

static const struct {
    const char *name;
    uint8_t type;
} vendor_tags[] = {
    [REFERENCE_TAG_PATTERN - CAMERA_METADATA_VENDOR_TAG_BOUNDARY] = { "pattern", TYPE_BYTE },
    [REFERENCE_TAG_LEVEL - CAMERA_METADATA_VENDOR_TAG_BOUNDARY] = { "level", TYPE_INT32 },
};

#define VENDOR_TAGS (sizeof(vendor_tags) / sizeof(vendor_tags[0]))

static bool is_ours(uint32_t tag)
{
    return tag >= CAMERA_METADATA_VENDOR_TAG_BOUNDARY && tag - CAMERA_METADATA_VENDOR_TAG_BOUNDARY < VENDOR_TAGS;
}

static int get_tag_count(const vendor_tag_ops_t *ops)
{
    (void)ops;
    return VENDOR_TAGS;
}

static void get_all_tags(const vendor_tag_ops_t *ops, uint32_t *tags)
{
    (void)ops;
    for (uint32_t i = 0; i < VENDOR_TAGS; i++)
        tags[i] = CAMERA_METADATA_VENDOR_TAG_BOUNDARY + i;
}

static const char *get_section_name(const vendor_tag_ops_t *ops, uint32_t tag)
{
    (void)ops;
    return is_ours(tag) ? "pauvigre.scene" : NULL;
}

static const char *get_tag_name(const vendor_tag_ops_t *ops, uint32_t tag)
{
    (void)ops;
    return is_ours(tag) ? vendor_tags[tag - CAMERA_METADATA_VENDOR_TAG_BOUNDARY].name : NULL;
}

static int get_tag_type(const vendor_tag_ops_t *ops, uint32_t tag)
{
    (void)ops;
    return is_ours(tag) ? vendor_tags[tag - CAMERA_METADATA_VENDOR_TAG_BOUNDARY].type : -1;
}

const vendor_tag_ops_t reference_vendor_tags = {
    .get_tag_count = get_tag_count,
    .get_all_tags = get_all_tags,
    .get_section_name = get_section_name,
    .get_tag_name = get_tag_name,
    .get_tag_type = get_tag_type,
};

/* ---- settings. A negative number becomes one that is far out of its range, and is refused as such */

static bool find(const camera_metadata_t *pack, uint32_t tag, uint8_t type, camera_metadata_ro_entry_t *entry)
{
    return find_camera_metadata_ro_entry(pack, tag, entry) == 0 && entry->type == type && entry->count != 0;
}

void reference_read_settings(const camera_metadata_t *pack, struct pauvigre_settings *settings)
{
    camera_metadata_ro_entry_t entry;

    if (validate_camera_metadata_structure(pack, NULL) != 0) {
        settings->pattern = NO_PATTERN;
        return;
    }
    if (find(pack, ANDROID_SENSOR_EXPOSURE_TIME, TYPE_INT64, &entry))
        settings->exposure = (uint64_t)entry.data.i64[0];
    if (find(pack, ANDROID_SENSOR_SENSITIVITY, TYPE_INT32, &entry))
        settings->iso = (uint32_t)entry.data.i32[0];
    if (find(pack, REFERENCE_TAG_LEVEL, TYPE_INT32, &entry))
        settings->level = (uint32_t)entry.data.i32[0];
    if (find(pack, REFERENCE_TAG_PATTERN, TYPE_BYTE, &entry))
        settings->pattern = entry.data.u8[0];
    /* the sensor has a scene, and no test pattern */
    if (find(pack, ANDROID_SENSOR_TEST_PATTERN_MODE, TYPE_INT32, &entry)
        && entry.data.i32[0] != ANDROID_SENSOR_TEST_PATTERN_MODE_OFF)
        settings->pattern = NO_PATTERN;
}

/* ---- packs */

static camera_metadata_t *place(struct reference_pack *pack)
{
    return place_camera_metadata(pack->bytes, sizeof(pack->bytes), MOST_ENTRIES, MOST_ENTRIES * sizeof(int64_t));
}

static bool add_look(camera_metadata_t *made, uint8_t pattern, uint32_t level)
{
    return add_camera_metadata_entry(made, REFERENCE_TAG_PATTERN, &pattern, 1) == 0
           && add_camera_metadata_entry(made, REFERENCE_TAG_LEVEL, &(int32_t){ (int32_t)level }, 1) == 0;
}

static bool add_light(camera_metadata_t *made, uint64_t exposure, uint32_t iso)
{
    return add_camera_metadata_entry(made, ANDROID_SENSOR_EXPOSURE_TIME, &(int64_t){ (int64_t)exposure }, 1) == 0
           && add_camera_metadata_entry(made, ANDROID_SENSOR_SENSITIVITY, &(int32_t){ (int32_t)iso }, 1) == 0;
}

static bool add_time(camera_metadata_t *made, uint64_t timestamp)
{
    return add_camera_metadata_entry(made, ANDROID_SENSOR_TIMESTAMP, &(int64_t){ (int64_t)timestamp }, 1) == 0;
}

const camera_metadata_t *reference_pack_settings(struct reference_pack *pack, const struct pauvigre_settings *settings)
{
    camera_metadata_t *made = place(pack);
    const uint8_t off = ANDROID_CONTROL_MODE_OFF;

    if (made == NULL || add_camera_metadata_entry(made, ANDROID_CONTROL_MODE, &off, 1) != 0
        || !add_light(made, settings->exposure, settings->iso) || !add_look(made, settings->pattern, settings->level))
        return NULL;
    return made;
}

const camera_metadata_t *reference_pack_part(struct reference_pack *pack, const struct pauvigre_part *part)
{
    camera_metadata_t *made = place(pack);
    bool whole;

    if (made == NULL)
        return NULL;
    switch (part->number) {
    case 1: whole = add_look(made, part->pattern, part->level); break;
    case 2: whole = add_light(made, part->exposure, part->iso); break;
    default: whole = add_time(made, part->timestamp); break;
    }
    return whole ? made : NULL;
}
