#ifndef TABULATE_VERSION_H
#define TABULATE_VERSION_H

#include "compiler.h"
#include "config.h"

#define TABULATE_VERSION STRINGIFY(TABULATE_MAJOR) "." STRINGIFY(TABULATE_MINOR)

#endif
