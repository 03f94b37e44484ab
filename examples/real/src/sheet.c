#include "tabulate/sheet.h"
#include "tabulate/expr.h"
#include "tabulate/file.h"
#include "tabulate/ini.h"
#include "tabulate/log.h"
#include "tabulate/paths.h"
#include "tabulate/pool.h"

#include <errno.h>
#include <limits.h>
#include <stdlib.h>
#include <string.h>

static int reads_number(const char *text, double *number)
{
    char *end;
    errno = 0;
    *number = strtod(text, &end);
    return end != text && *end == '\0' && errno == 0;
}

static int reads_whole(const char *text, long long least, long long most, long long *number)
{
    char *end;
    errno = 0;
    *number = strtoll(text, &end, 10);
    return end != text && *end == '\0' && errno == 0 && *number >= least && *number <= most;
}

static enum status read_data(struct sheet *sheet, const char *name)
{
    struct strbuf path = {0};
    int line = 0;
    path_beside(&path, sheet->path, name);
    enum status status = path.failed ? STATUS_READ : file_read(path.text, &sheet->data);
    if (status == STATUS_OK)
        status = csv_read(sheet->data.text, &sheet->csv, &line);
    if (status == STATUS_LINE)
        LOG(ERROR, "line %d of %s is wrong", line, path.text);
    strbuf_free(&path);
    return status;
}

static enum status setting(struct sheet *sheet, const char *key, const char *value)
{
    long long number = 0;
    if (strcmp(key, "title") == 0)
        sheet->title = value;
    else if (strcmp(key, "style") == 0)
        sheet->style = value;
    else if (strcmp(key, "data") == 0)
        return read_data(sheet, value);
    else if (strcmp(key, "precision") == 0 && reads_whole(value, 0, 9, &number))
        sheet->precision = (int)number;
    else if (strcmp(key, "time") == 0 && reads_whole(value, 0, INT_MAX, &number))
        sheet->time = number;
    else
        return STATUS_LINE;
    return STATUS_OK;
}

static enum status computed(struct sheet *sheet, const char *key, const char *value)
{
    struct column *column = columns_push(&sheet->columns);
    if (!column)
        return STATUS_MEMORY;
    column->name = key;
    column->line = sheet->line;
    return expr_read(&sheet->arena, value, &column->expr, &sheet->wrong);
}

static enum status entry(void *context, const char *section, const char *key, const char *value)
{
    struct sheet *sheet = context;
    double number;
    sheet->wrong = key;
    if (strcmp(section, "sheet") == 0)
        return setting(sheet, key, value);
    if (strcmp(section, "columns") == 0)
        return computed(sheet, key, value);
    if (strcmp(section, "names") == 0 && reads_number(value, &number))
        return hashmap_put(&sheet->names, key, number);
    return STATUS_LINE;
}

enum status sheet_read(struct sheet *sheet, const char *path)
{
    sheet->path = path;
    sheet->title = path_last(path);
    sheet->style = "plain";
    sheet->precision = 2;
    RETURN_UNLESS_OK(file_read(path, &sheet->description));
    LOG(INFO, "read");
    if (sheet->description.length == 0)
        return STATUS_LINE;
    return ini_read(sheet->description.text, entry, sheet, &sheet->line);
}

/* The names of the sheet and, over them, those of a row's cells that are numbers. */
static enum status names_of_row(const struct sheet *sheet, const struct csv_cells *row, struct hashmap *names)
{
    for (size_t place = 0; place < sheet->names.room; place++)
        if (sheet->names.slots[place].key)
            RETURN_UNLESS_OK(hashmap_put(names, sheet->names.slots[place].key, sheet->names.slots[place].value));
    for (size_t place = 0; place < row->length; place++) {
        double number;
        if (reads_number(row->items[place], &number))
            RETURN_UNLESS_OK(hashmap_put(names, sheet->csv.names.items[place], number));
    }
    return STATUS_OK;
}

static enum status compute_column(void *context, size_t number)
{
    struct sheet *sheet = context;
    struct column *column = &sheet->columns.items[number];
    column->values = calloc(sheet->csv.rows.length + 1, sizeof *column->values);
    column->status = column->values ? STATUS_OK : STATUS_MEMORY;
    for (size_t row = 0; row < sheet->csv.rows.length && column->status == STATUS_OK; row++) {
        struct hashmap names = {0};
        column->status = names_of_row(sheet, &sheet->csv.rows.items[row], &names);
        if (column->status == STATUS_OK)
            column->status = expr_value(column->expr, &names, &column->values[row], &column->wrong);
        hashmap_free(&names);
    }
    return column->status;
}

enum status sheet_compute(struct sheet *sheet)
{
    enum status status = pool_run(sheet->columns.length, compute_column, sheet);
    VECTOR_EACH(struct column, column, &sheet->columns)
        if (column->status == status && status != STATUS_OK) {
            sheet->wrong = column->wrong;
            sheet->line = column->line;
            break;
        }
    return status;
}

void sheet_free(struct sheet *sheet)
{
    VECTOR_EACH(struct column, column, &sheet->columns)
        free(column->values);
    columns_free(&sheet->columns);
    hashmap_free(&sheet->names);
    csv_free(&sheet->csv);
    strbuf_free(&sheet->data);
    strbuf_free(&sheet->description);
    arena_free(&sheet->arena);
}
