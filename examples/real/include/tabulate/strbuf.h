#ifndef TABULATE_STRBUF_H
#define TABULATE_STRBUF_H

#include <stddef.h>
#include "compiler.h"

/* A text that grows; `failed` stays set after memory was wanting. */
struct strbuf {
    char *text;
    size_t length, capacity;
    int failed;
};

void strbuf_add(struct strbuf *buffer, const char *bytes, size_t length);
void strbuf_repeat(struct strbuf *buffer, const char *text, size_t times);
void strbuf_format(struct strbuf *buffer, const char *format, ...) FORMAT_LIKE(2, 3);
void strbuf_clear(struct strbuf *buffer);
void strbuf_free(struct strbuf *buffer);

#define strbuf_literal(buffer, literal) strbuf_add((buffer), "" literal, sizeof(literal) - 1)

#endif
