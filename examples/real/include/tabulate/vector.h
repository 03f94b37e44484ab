#ifndef TABULATE_VECTOR_H
#define TABULATE_VECTOR_H

#include <stdint.h>
#include <stdlib.h>
#include <string.h>

/* Makes room for one item more; NULL where there is no memory. */
static inline void *vector_room(void *items, size_t length, size_t *capacity, size_t size)
{
    if (length < *capacity)
        return items;
    size_t wanted = *capacity ? *capacity * 2 : 8;
    if (wanted > SIZE_MAX / size)
        return NULL;
    void *grown = realloc(items, wanted * size);
    if (grown)
        *capacity = wanted;
    return grown;
}

/* A vector of a type, and its functions, whose names begin with its own. */
#define VECTOR(name, type)                                                                   \
    struct name {                                                                            \
        type *items;                                                                         \
        size_t length, capacity;                                                             \
    };                                                                                       \
    static inline type *name##_push(struct name *vector)                                     \
    {                                                                                        \
        type *items = vector_room(vector->items, vector->length, &vector->capacity, sizeof *items); \
        if (!items)                                                                          \
            return NULL;                                                                     \
        vector->items = items;                                                               \
        return memset(&items[vector->length++], 0, sizeof *items);                           \
    }                                                                                        \
    static inline void name##_free(struct name *vector)                                      \
    {                                                                                        \
        free(vector->items);                                                                 \
        memset(vector, 0, sizeof *vector);                                                   \
    }                                                                                        \
    struct name

#define VECTOR_EACH(type, item, vector) \
    for (type *item = (vector)->items; item < (vector)->items + (vector)->length; item++)

#endif
