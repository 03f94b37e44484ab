#include "tabulate/log.h"
#include "tabulate/paths.h"

#include <pthread.h>
#include <stdarg.h>
#include <stdio.h>

static const char *const words[] = {
#define LEVEL(name, word) [LOG_##name] = STRINGIFY(word),
#include "tabulate/log_levels.def"
#undef LEVEL
};

enum log_level log_least = LOG_WARNING;

static pthread_mutex_t lock = PTHREAD_MUTEX_INITIALIZER;

void log_write(enum log_level level, const char *file, int line, const char *format, ...)
{
    va_list given;
    va_start(given, format);
    pthread_mutex_lock(&lock);
    fprintf(stderr, "%s: %s:%d: ", words[level], path_last(file), line);
    vfprintf(stderr, format, given);
    fputc('\n', stderr);
    pthread_mutex_unlock(&lock);
    va_end(given);
}
