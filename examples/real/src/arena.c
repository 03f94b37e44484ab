#include "tabulate/arena.h"

#include <stdint.h>
#include <stdlib.h>
#include <string.h>

enum { BLOCK_SIZE = 4096 };

struct arena_block {
    struct arena_block *before;
    size_t used, room;
    union {
        long long number;
        double real;
        void *pointer;
        char bytes[1];
    } start;
};

CHECK_STATICALLY(BLOCK_SIZE % sizeof(void *) == 0, "a block holds whole pointers");

static size_t rounded(size_t size)
{
    const size_t step = sizeof(((struct arena_block *)0)->start);
    return (size + step - 1) / step * step;
}

static struct arena_block *block_for(struct arena *arena, size_t size)
{
    size_t room = size > BLOCK_SIZE ? size : BLOCK_SIZE;
    struct arena_block *block = malloc(offsetof(struct arena_block, start) + room);
    if (!block)
        return NULL;
    block->before = arena->last;
    block->used = 0;
    block->room = room;
    arena->last = block;
    return block;
}

void *arena_take(struct arena *arena, size_t size)
{
    if (size > SIZE_MAX / 2)
        return NULL;
    size = rounded(size);
    struct arena_block *block = arena->last;
    if (!block || block->room - block->used < size)
        block = block_for(arena, size);
    if (!block)
        return NULL;
    void *taken = block->start.bytes + block->used;
    block->used += size;
    arena->pieces++;
    return memset(taken, 0, size);
}

char *arena_text(struct arena *arena, const char *bytes, size_t length)
{
    char *text = arena_take(arena, length + 1);
    return text ? memcpy(text, bytes, length) : NULL;
}

void arena_free(struct arena *arena)
{
    while (arena->last) {
        struct arena_block *block = arena->last;
        arena->last = block->before;
        free(block);
    }
}
