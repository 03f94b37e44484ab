#include "tabulate/file.h"
#include "tabulate/log.h"

#include <errno.h>
#include <stdio.h>
#include <string.h>
#include <sys/stat.h>

static enum status failed(const char *path)
{
    LOG(ERROR, "%s: %s", path, strerror(errno));
    return STATUS_READ;
}

enum status file_read(const char *path, struct strbuf *text)
{
    struct stat about;
    if (stat(path, &about) != 0)
        return failed(path);
    if (S_ISDIR(about.st_mode)) {
        errno = EISDIR;
        return failed(path);
    }
    FILE *file = fopen(path, "rb");
    if (!file)
        return failed(path);
    char bytes[4096];
    size_t length;
    while ((length = fread(bytes, 1, sizeof bytes, file)) > 0)
        strbuf_add(text, bytes, length);
    int wrong = ferror(file);
    fclose(file);
    if (text->failed)
        return STATUS_MEMORY;
    if (text->length != (size_t)about.st_size)
        LOG(WARNING, "%s has another length than it had", path);
    return wrong ? failed(path) : STATUS_OK;
}
