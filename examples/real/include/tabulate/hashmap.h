#ifndef TABULATE_HASHMAP_H
#define TABULATE_HASHMAP_H

#include <stddef.h>
#include <stdint.h>
#include "status.h"

struct hashmap_slot {
    const char *key;
    uint32_t hash;
    double value;
};

/* Numbers under names, by open addressing; the keys are lent. */
struct hashmap {
    struct hashmap_slot *slots;
    size_t used, room;
};

uint32_t hashmap_hash(const char *key);
enum status hashmap_put(struct hashmap *map, const char *key, double value);
const double *hashmap_get(const struct hashmap *map, const char *key);
void hashmap_free(struct hashmap *map);

#endif
