#pragma once

#define PLATFORM_NAME "linux"
#define HAS_PROC 1

#ifdef __has_include
#if __has_include(<linux/limits.h>)
#include <linux/limits.h>
#endif
#if __has_include("on_this_machine.h")
#include "on_this_machine.h"
#endif
#endif

#include "on_posix.h"
