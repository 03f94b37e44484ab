#include "tabulate/strbuf.h"

#include <stdarg.h>
#include <stdio.h>
#include <stdlib.h>
#include <string.h>

static int has_room(struct strbuf *buffer, size_t length)
{
    size_t wanted = buffer->length + length + 1;
    if (buffer->failed || wanted < length)
        return 0;
    if (wanted <= buffer->capacity)
        return 1;
    size_t capacity = wanted + wanted / 2;
    char *text = realloc(buffer->text, capacity);
    if (!text) {
        buffer->failed = 1;
        return 0;
    }
    buffer->text = text;
    buffer->capacity = capacity;
    return 1;
}

void strbuf_add(struct strbuf *buffer, const char *bytes, size_t length)
{
    if (!has_room(buffer, length))
        return;
    memcpy(buffer->text + buffer->length, bytes, length);
    buffer->length += length;
    buffer->text[buffer->length] = '\0';
}

void strbuf_repeat(struct strbuf *buffer, const char *text, size_t times)
{
    while (times-- > 0)
        strbuf_add(buffer, text, strlen(text));
}

void strbuf_format(struct strbuf *buffer, const char *format, ...)
{
    va_list given;
    va_start(given, format);
    int length = vsnprintf(NULL, 0, format, given);
    va_end(given);
    if (length < 0 || !has_room(buffer, (size_t)length))
        return;
    va_start(given, format);
    vsnprintf(buffer->text + buffer->length, (size_t)length + 1, format, given);
    va_end(given);
    buffer->length += (size_t)length;
}

void strbuf_clear(struct strbuf *buffer)
{
    buffer->length = 0;
    if (buffer->text)
        buffer->text[0] = '\0';
}

void strbuf_free(struct strbuf *buffer)
{
    free(buffer->text);
    memset(buffer, 0, sizeof *buffer);
}
