#include "tabulate/token.h"

#include <ctype.h>
#include <stdlib.h>

static const char *const shown[] = {
#define TOKEN(name, text) [TOKEN_##name] = text,
#include "tabulate/tokens.def"
};

CHECK_STATICALLY(COUNT_OF(shown) == TOKEN_MORE + 1, "each kind has a text");

static enum token_kind kind_of(char byte)
{
    switch (byte) {
#define TOKEN(name, text)
#define MARK(name, byte) case byte: return TOKEN_##name;
#include "tabulate/tokens.def"
    }
    return TOKEN_WRONG;
}

static int goes_on(char byte)
{
    return isalnum((unsigned char)byte) || byte == '_';
}

struct token token_next(const char **text)
{
    while (isspace((unsigned char)**text))
        ++*text;
    struct token token = {TOKEN_END, *text, 0, 0};
    const char *end = *text;
    if (isdigit((unsigned char)*end)) {
        char *behind;
        token.kind = TOKEN_NUMBER;
        token.number = strtod(end, &behind);
        end = behind;
    } else if (goes_on(*end)) {
        token.kind = TOKEN_NAME;
        while (goes_on(*end))
            end++;
    } else if (*end) {
        token.kind = kind_of(*end++);
    }
    token.length = (size_t)(end - *text);
    *text = end;
    return token;
}

const char *token_shown(enum token_kind kind)
{
    return shown[kind];
}
