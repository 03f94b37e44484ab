#ifndef TABULATE_EXPR_H
#define TABULATE_EXPR_H

#include "arena.h"
#include "hashmap.h"
#include "status.h"

struct expr;

/* An expression, read from a text into an arena; `wrong` is what couldn't be read. */
enum status expr_read(struct arena *arena, const char *text, const struct expr **made, const char **wrong);
enum status expr_value(const struct expr *expr, const struct hashmap *names, double *value, const char **wrong);

#endif
