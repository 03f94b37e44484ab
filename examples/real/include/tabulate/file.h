#ifndef TABULATE_FILE_H
#define TABULATE_FILE_H

#include "strbuf.h"
#include "status.h"

enum status file_read(const char *path, struct strbuf *text);

#endif
