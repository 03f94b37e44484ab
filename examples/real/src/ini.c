#include "tabulate/ini.h"

#include <ctype.h>
#include <string.h>

static char *trimmed(char *text)
{
    while (isspace((unsigned char)*text))
        text++;
    char *end = text + strlen(text);
    while (end > text && isspace((unsigned char)end[-1]))
        *--end = '\0';
    return text;
}

static enum status read_line(char *text, const char **section, ini_entry *entry, void *context)
{
    text = trimmed(text);
    if (*text == '\0' || *text == '#' || *text == ';')
        return STATUS_OK;
    char *end = strchr(text, *text == '[' ? ']' : '=');
    if (!end)
        return STATUS_LINE;
    *end = '\0';
    if (*text != '[')
        return entry(context, *section, trimmed(text), trimmed(end + 1));
    *section = trimmed(text + 1);
    return STATUS_OK;
}

enum status ini_read(char *text, ini_entry *entry, void *context, int *line)
{
    const char *section = "";
    for (*line = 1; text; ++*line) {
        char *end = strchr(text, '\n');
        if (end)
            *end = '\0';
        RETURN_UNLESS_OK(read_line(text, &section, entry, context));
        text = end ? end + 1 : NULL;
    }
    return STATUS_OK;
}
