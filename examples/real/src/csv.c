#include "tabulate/csv.h"

#include <string.h>

static enum status add_cell(struct csv_cells *cells, const char *text)
{
    const char **cell = csv_cells_push(cells);
    if (!cell)
        return STATUS_MEMORY;
    *cell = text;
    return STATUS_OK;
}

/* Cuts a cell in quotes off a text, in place, and gives what stands behind it. */
static char *unquoted(char *text)
{
    char *to = text;
    for (char *from = text + 1; *from; from++) {
        if (*from == '"' && *++from != '"') {
            *to = '\0';
            return from;
        }
        *to++ = *from;
    }
    return NULL;
}

static enum status read_row(char *text, struct csv_cells *cells)
{
    for (;;) {
        char *end = *text == '"' ? unquoted(text) : strchr(text, ',');
        if (end && *end && *end != ',')
            return STATUS_LINE;
        if (!end && *text == '"')
            return STATUS_LINE;
        RETURN_UNLESS_OK(add_cell(cells, text));
        if (!end || !*end)
            return STATUS_OK;
        *end = '\0';
        text = end + 1;
    }
}

static enum status read_line(char *text, struct csv *csv)
{
    text[strcspn(text, "\r")] = '\0';
    if (!*text)
        return STATUS_OK;
    if (csv->names.length == 0)
        return read_row(text, &csv->names);
    struct csv_cells *row = csv_rows_push(&csv->rows);
    if (!row)
        return STATUS_MEMORY;
    RETURN_UNLESS_OK(read_row(text, row));
    return row->length == csv->names.length ? STATUS_OK : STATUS_LINE;
}

enum status csv_read(char *text, struct csv *csv, int *line)
{
    for (*line = 1; text; ++*line) {
        char *end = strchr(text, '\n');
        if (end)
            *end = '\0';
        RETURN_UNLESS_OK(read_line(text, csv));
        text = end ? end + 1 : NULL;
    }
    return STATUS_OK;
}

void csv_free(struct csv *csv)
{
    VECTOR_EACH(struct csv_cells, row, &csv->rows)
        csv_cells_free(row);
    csv_rows_free(&csv->rows);
    csv_cells_free(&csv->names);
}
