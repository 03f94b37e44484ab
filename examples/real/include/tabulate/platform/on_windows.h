#pragma once

#include <io.h>
#include <windows.h>

#define PLATFORM_NAME "windows"
#define PATH_SEPARATOR '\\'
#define LONGEST_PATH MAX_PATH

static inline int writes_to_terminal(void)
{
    return _isatty(1);
}
