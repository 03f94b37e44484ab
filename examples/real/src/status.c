#include "tabulate/status.h"

static const struct {
    const char *name, *text;
} statuses[] = {
#define STATUS(name, text) {#name, text},
#include "tabulate/status.def"
#undef STATUS
};

const char *status_name(enum status status)
{
    return statuses[status].name;
}

const char *status_text(enum status status)
{
    return statuses[status].text;
}
