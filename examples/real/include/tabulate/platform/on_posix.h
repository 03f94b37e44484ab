#pragma once

#include <limits.h>
#include <unistd.h>

#define PATH_SEPARATOR '/'
#ifndef PLATFORM_NAME
#define PLATFORM_NAME "posix"
#endif

#ifdef PATH_MAX
#define LONGEST_PATH PATH_MAX
#else
#define LONGEST_PATH 4096
#endif

static inline int writes_to_terminal(void)
{
    return isatty(STDOUT_FILENO);
}
