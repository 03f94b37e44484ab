#ifndef TABULATE_PLATFORM_H
#define TABULATE_PLATFORM_H

/* The header of this system; a build may name its own with -DPLATFORM_HEADER. */

#ifndef PLATFORM_HEADER
#if defined(_WIN32)
#define PLATFORM_HEADER "platform/on_windows.h"
#elif defined(__linux__)
#define PLATFORM_HEADER "platform/on_linux.h"
#elif defined(__APPLE__) || defined(__FreeBSD__)
#define PLATFORM_HEADER <tabulate/platform/on_bsd.h>
#else
#define PLATFORM_HEADER <tabulate/platform/on_posix.h>
#endif
#endif

#include PLATFORM_HEADER

#ifndef PLATFORM_NAME
#error the header of the platform gives no PLATFORM_NAME
#endif

#endif
