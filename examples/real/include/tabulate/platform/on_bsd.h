#pragma once

#define PLATFORM_NAME "bsd"

#include <sys/param.h>
#include "on_posix.h"
