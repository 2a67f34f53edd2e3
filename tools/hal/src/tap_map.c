/* Numbers by address: a hash table with open addressing. */
#include "tap_map.h"

#include <stdlib.h>

static uintptr_t key_of(const void *address)
{
    return (uintptr_t)address | 1;
}

/* The slot of the key, or the empty one where it would stand. */
static struct tap_slot *slot_of(const struct tap_map *map, uintptr_t key)
{
    uint64_t mixed = (uint64_t)key * UINT64_C(0x9E3779B97F4A7C15);
    size_t place = (size_t)(mixed >> 32) & (map->capacity - 1);

    while (map->slots[place].key != 0 && map->slots[place].key != key)
        place = (place + 1) & (map->capacity - 1);
    return &map->slots[place];
}

bool tap_map_find(const struct tap_map *map, const void *address, uint32_t *number)
{
    const struct tap_slot *slot;

    if (map->capacity == 0)
        return false;
    slot = slot_of(map, key_of(address));
    if (slot->key == 0)
        return false;
    *number = slot->number;
    return true;
}

static bool grow(struct tap_map *map)
{
    struct tap_map larger = { NULL, map->capacity == 0 ? 64 : map->capacity * 2, map->count };

    larger.slots = calloc(larger.capacity, sizeof(*larger.slots));
    if (larger.slots == NULL)
        return false;
    for (size_t i = 0; i < map->capacity; i++)
        if (map->slots[i].key != 0)
            *slot_of(&larger, map->slots[i].key) = map->slots[i];
    free(map->slots);
    *map = larger;
    return true;
}

bool tap_map_put(struct tap_map *map, const void *address, uint32_t number)
{
    struct tap_slot *slot;

    if (2 * (map->count + 1) > map->capacity && !grow(map))
        return false;
    slot = slot_of(map, key_of(address));
    if (slot->key == 0)
        map->count++;
    slot->key = key_of(address);
    slot->number = number;
    return true;
}

void tap_map_free(struct tap_map *map)
{
    free(map->slots);
    *map = (struct tap_map){ NULL, 0, 0 };
}
