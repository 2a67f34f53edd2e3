/* Numbers by address: of streams, of buffers. */
#ifndef TAP_MAP_H
#define TAP_MAP_H

#include <stdbool.h>
#include <stddef.h>
#include <stdint.h>

struct tap_slot {
    uintptr_t key; /* the address and 1, so that 0 is an empty slot; addresses of objects aren't odd */
    uint32_t number;
};

/* Open addressing; at most half of the slots are used. All zero: an empty map. */
struct tap_map {
    struct tap_slot *slots;
    size_t capacity; /* a power of 2, or 0 */
    size_t count;
};

bool tap_map_find(const struct tap_map *map, const void *address, uint32_t *number);

/* Puts the number in the place of the one that the address had, if any. False: no memory; nothing changed. */
bool tap_map_put(struct tap_map *map, const void *address, uint32_t number);

void tap_map_free(struct tap_map *map);

#endif
