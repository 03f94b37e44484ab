#pragma once

#include "compiler.h"

enum log_level {
#define LEVEL(name, word) LOG_##name,
#include "log_levels.def"
#undef LEVEL
};

extern enum log_level log_least;

void log_write(enum log_level level, const char *file, int line, const char *format, ...) FORMAT_LIKE(4, 5);

#define LOG(level, format, ...)                                                   \
    do {                                                                          \
        if (LOG_##level >= log_least)                                             \
            log_write(LOG_##level, __FILE__, __LINE__, format, ##__VA_ARGS__);    \
    } while (0)
