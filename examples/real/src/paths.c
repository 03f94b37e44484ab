#include "tabulate/paths.h"

#include <string.h>

const char *path_last(const char *path)
{
    const char *separator = strrchr(path, PATH_SEPARATOR);
    return separator ? separator + 1 : path;
}

/* The path of a name beside another path; one from the root stays as it is. */
void path_beside(struct strbuf *made, const char *path, const char *name)
{
    strbuf_clear(made);
    if (name[0] != PATH_SEPARATOR)
        strbuf_add(made, path, (size_t)(path_last(path) - path));
    strbuf_add(made, name, strlen(name));
    if (made->length >= LONGEST_PATH)
        made->failed = 1;
}
