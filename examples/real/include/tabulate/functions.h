#ifndef TABULATE_FUNCTIONS_H
#define TABULATE_FUNCTIONS_H

#include <stddef.h>

#define MOST_ARGUMENTS 3

struct function {
    const char *name;
    size_t arguments;
    double (*value)(const double *given);
};

const struct function *function_named(const char *name, size_t length);

#endif
