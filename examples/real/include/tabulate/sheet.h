#ifndef TABULATE_SHEET_H
#define TABULATE_SHEET_H

#include "arena.h"
#include "csv.h"
#include "hashmap.h"
#include "status.h"
#include "strbuf.h"
#include "vector.h"

struct expr;

struct column {
    const char *name;
    const struct expr *expr;
    double *values;
    enum status status;
    const char *wrong;
    int line;
};

VECTOR(columns, struct column);

/* What a description asks for: a title, the data, names with their values, and columns that are computed. */
struct sheet {
    struct arena arena;
    struct strbuf description, data;
    const char *path, *title, *style;
    struct csv csv;
    struct hashmap names;
    struct columns columns;
    long long time;
    int precision, line;
    const char *wrong;
};

enum status sheet_read(struct sheet *sheet, const char *path);
enum status sheet_compute(struct sheet *sheet);
enum status sheet_show(struct sheet *sheet, struct strbuf *made);
void sheet_free(struct sheet *sheet);

#endif
