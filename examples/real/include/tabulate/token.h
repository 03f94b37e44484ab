#ifndef TABULATE_TOKEN_H
#define TABULATE_TOKEN_H

#include <stddef.h>
#include "compiler.h"

enum token_kind {
#define TOKEN(name, text) TOKEN_##name,
#include "tokens.def"
};

struct token {
    enum token_kind kind;
    const char *start;
    size_t length;
    double number;
};

/* The first token of a text; what is left begins behind it. */
struct token token_next(const char **text);
const char *token_shown(enum token_kind kind);

#endif
