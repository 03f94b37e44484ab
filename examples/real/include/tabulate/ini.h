#ifndef TABULATE_INI_H
#define TABULATE_INI_H

#include "status.h"

typedef enum status ini_entry(void *context, const char *section, const char *key, const char *value);

/* Cuts a text into entries, in place; `line` is the line that was read last. */
enum status ini_read(char *text, ini_entry *entry, void *context, int *line);

#endif
