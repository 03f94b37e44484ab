#include "tabulate/sheet.h"
#include "tabulate/table.h"
#include "tabulate/version.h"

#include <inttypes.h>
#include <string.h>
#include <time.h>

struct total {
    const char *name;
    double sum;
};

#define SORT_NAME sort_totals
#define SORT_TYPE struct total
#define SORT_BEFORE(left, right) ((left).sum > (right).sum)
#include "tabulate/sort.inc"

#define SORT_NAME sort_names
#define SORT_TYPE const char *
#define SORT_BEFORE(left, right) (strcmp(left, right) < 0)
#include "tabulate/sort.inc"

static enum status show_head(const struct sheet *sheet, struct strbuf *made)
{
    char day[32];
    time_t time = (time_t)sheet->time;
    struct tm parts;
    if (!gmtime_r(&time, &parts) || strftime(day, sizeof day, "%Y-%m-%d", &parts) == 0)
        return STATUS_LINE;
    strbuf_format(made, "%s, %s (tabulate " TABULATE_VERSION ")\n\n", sheet->title, day);
    return STATUS_OK;
}

static enum status add_names(const struct sheet *sheet, struct table *table)
{
    for (size_t place = 0; place < sheet->csv.names.length; place++)
        RETURN_UNLESS_OK(table_add(table, "%s", sheet->csv.names.items[place]));
    VECTOR_EACH(struct column, column, &sheet->columns)
        RETURN_UNLESS_OK(table_add(table, "%s", column->name));
    return STATUS_OK;
}

static enum status add_row(const struct sheet *sheet, size_t row, struct table *table)
{
    VECTOR_EACH(const char *, cell, &sheet->csv.rows.items[row])
        RETURN_UNLESS_OK(table_add(table, "%s", *cell));
    VECTOR_EACH(struct column, column, &sheet->columns)
        RETURN_UNLESS_OK(table_add(table, "%.*f", sheet->precision, column->values[row]));
    return STATUS_OK;
}

static enum status show_table(struct sheet *sheet, struct strbuf *made)
{
    struct table table = {&sheet->arena, sheet->csv.names.length + sheet->columns.length, {0}};
    if (table.columns == 0)
        return STATUS_OK;
    enum status status = add_names(sheet, &table);
    for (size_t row = 0; row < sheet->csv.rows.length && status == STATUS_OK; row++)
        status = add_row(sheet, row, &table);
    if (status == STATUS_OK)
        status = table_lay_out(&table, sheet->style, made);
    table_free(&table);
    return status;
}

/* The sums of the computed columns, the largest first. */
static enum status show_totals(struct sheet *sheet, struct strbuf *made)
{
    struct total *totals = arena_take(&sheet->arena, (sheet->columns.length + 1) * sizeof *totals);
    if (!totals)
        return STATUS_MEMORY;
    for (size_t place = 0; place < sheet->columns.length; place++) {
        totals[place].name = sheet->columns.items[place].name;
        for (size_t row = 0; row < sheet->csv.rows.length; row++)
            totals[place].sum += sheet->columns.items[place].values[row];
    }
    sort_totals(totals, sheet->columns.length);
    for (size_t place = 0; place < sheet->columns.length; place++)
        strbuf_format(made, "%s%s: %.*f", place ? ", " : "\nsums: ", totals[place].name, sheet->precision,
                      totals[place].sum);
    strbuf_literal(made, "\n");
    return STATUS_OK;
}

static enum status show_names(struct sheet *sheet, struct strbuf *made)
{
    const char **names = arena_take(&sheet->arena, (sheet->names.used + 1) * sizeof *names);
    size_t count = 0;
    if (!names)
        return STATUS_MEMORY;
    for (size_t place = 0; place < sheet->names.room; place++)
        if (sheet->names.slots[place].key)
            names[count++] = sheet->names.slots[place].key;
    sort_names(names, count);
    for (size_t place = 0; place < count; place++)
        strbuf_format(made, "%s = %g, hash %08" PRIx32 "\n", names[place], *hashmap_get(&sheet->names, names[place]),
                      hashmap_hash(names[place]));
    return STATUS_OK;
}

enum status sheet_show(struct sheet *sheet, struct strbuf *made)
{
    RETURN_UNLESS_OK(show_head(sheet, made));
    RETURN_UNLESS_OK(show_table(sheet, made));
    RETURN_UNLESS_OK(show_totals(sheet, made));
    RETURN_UNLESS_OK(show_names(sheet, made));
    return made->failed ? STATUS_MEMORY : STATUS_OK;
}
