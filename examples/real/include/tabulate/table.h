#ifndef TABULATE_TABLE_H
#define TABULATE_TABLE_H

#include "arena.h"
#include "status.h"
#include "strbuf.h"
#include "vector.h"

VECTOR(table_cells, const char *);

struct table {
    struct arena *arena;
    size_t columns;
    struct table_cells cells; /* row by row; the first row has the names */
};

enum status table_add(struct table *table, const char *format, ...) FORMAT_LIKE(2, 3);
enum status table_lay_out(const struct table *table, const char *style, struct strbuf *made);
void table_free(struct table *table);

#endif
