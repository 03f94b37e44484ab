#include "tabulate/hashmap.h"
#include "tabulate/byteorder.h"

#include <stdlib.h>
#include <string.h>

#define HASH_START UINT32_C(2166136261)
#define HASH_STEP UINT32_C(16777619)

uint32_t hashmap_hash(const char *key)
{
    uint32_t hash = HASH_START;
    size_t left = strlen(key);
    for (; left >= 4; left -= 4, key += 4)
        hash = (hash ^ little_word(key)) * HASH_STEP;
    for (; left > 0; left--, key++)
        hash = (hash ^ (unsigned char)*key) * HASH_STEP;
    return hash ^ hash >> 15;
}

/* The slot of a key, or the free one where it would stand. */
static struct hashmap_slot *slot_of(const struct hashmap *map, const char *key, uint32_t hash)
{
    size_t place = hash & (map->room - 1);
    while (map->slots[place].key && (map->slots[place].hash != hash || strcmp(map->slots[place].key, key) != 0))
        place = (place + 1) & (map->room - 1);
    return &map->slots[place];
}

static enum status grow(struct hashmap *map)
{
    struct hashmap larger = {.room = map->room ? map->room * 2 : 16, .used = map->used};
    larger.slots = calloc(larger.room, sizeof *larger.slots);
    if (!larger.slots)
        return STATUS_MEMORY;
    for (size_t place = 0; place < map->room; place++)
        if (map->slots[place].key)
            *slot_of(&larger, map->slots[place].key, map->slots[place].hash) = map->slots[place];
    free(map->slots);
    *map = larger;
    return STATUS_OK;
}

enum status hashmap_put(struct hashmap *map, const char *key, double value)
{
    if (map->used * 4 >= map->room * 3)
        RETURN_UNLESS_OK(grow(map));
    uint32_t hash = hashmap_hash(key);
    struct hashmap_slot *slot = slot_of(map, key, hash);
    map->used += slot->key == NULL;
    *slot = (struct hashmap_slot){key, hash, value};
    return STATUS_OK;
}

const double *hashmap_get(const struct hashmap *map, const char *key)
{
    if (map->room == 0)
        return NULL;
    const struct hashmap_slot *slot = slot_of(map, key, hashmap_hash(key));
    return slot->key ? &slot->value : NULL;
}

void hashmap_free(struct hashmap *map)
{
    free(map->slots);
    memset(map, 0, sizeof *map);
}
