#pragma once

#include "platform.h"
#include "strbuf.h"

const char *path_last(const char *path);
void path_beside(struct strbuf *made, const char *path, const char *name);
