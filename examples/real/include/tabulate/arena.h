#ifndef TABULATE_ARENA_H
#define TABULATE_ARENA_H

#include <stddef.h>
#include "compiler.h"

struct arena_block;

/* Memory that is taken piece by piece and given back at once. */
struct arena {
    struct arena_block *last;
    size_t pieces;
};

void *arena_take(struct arena *arena, size_t size) MUST_USE;
char *arena_text(struct arena *arena, const char *bytes, size_t length) MUST_USE;
void arena_free(struct arena *arena);

#define ARENA_NEW(arena, type) ((type *)arena_take((arena), sizeof(type)))

#endif
