#pragma once

enum status {
#define STATUS(name, text) STATUS_##name,
#include "status.def"
#undef STATUS
    STATUS_COUNT
};

const char *status_name(enum status status);
const char *status_text(enum status status);

#define RETURN_UNLESS_OK(call)            \
    do {                                  \
        enum status status_of_call = (call); \
        if (status_of_call != STATUS_OK)  \
            return status_of_call;        \
    } while (0)
