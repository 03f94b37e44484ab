#pragma once

#include "status.h"
#include "vector.h"

VECTOR(csv_cells, const char *);
VECTOR(csv_rows, struct csv_cells);

struct csv {
    struct csv_cells names;
    struct csv_rows rows;
};

enum status csv_read(char *text, struct csv *csv, int *line);
void csv_free(struct csv *csv);
