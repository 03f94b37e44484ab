#include "tabulate/table.h"
#include "tabulate/config.h"
#include "tabulate/log.h"

#include <stdarg.h>
#include <stdio.h>
#include <string.h>

struct style {
    const char *name, *left, *between, *right, *rule, *cross;
};

/* Each style is a file of its own, and all of them end with the same one. */
#define STYLE_TEMPLATE "template.inc"

#define STYLE_NAME plain
#include "tabulate/styles/plain.inc"
#define STYLE_NAME boxed
#include "tabulate/styles/boxed.inc"
#define STYLE_NAME dotted
#include "tabulate/styles/dotted.inc"

static const struct style *const styles[] = {
#define STYLE(name) &PASTE(style_, name),
#include "tabulate/styles/each.def"
#undef STYLE
};

static const struct style *style_named(const char *name)
{
    for (size_t place = 0; place < COUNT_OF(styles); place++)
        if (strcmp(styles[place]->name, name) == 0)
            return styles[place];
    LOG(WARNING, "no style is called %s", name);
    return &PASTE(style_, TABULATE_STYLE);
}

enum status table_add(struct table *table, const char *format, ...)
{
    char text[256];
    va_list given;
    va_start(given, format);
    int length = vsnprintf(text, sizeof text, format, given);
    va_end(given);
    if (length < 0 || (size_t)length >= sizeof text)
        length = length < 0 ? 0 : (int)sizeof text - 1;
    const char **cell = table_cells_push(&table->cells);
    if (!cell)
        return STATUS_MEMORY;
    *cell = arena_text(table->arena, text, (size_t)length);
    return *cell ? STATUS_OK : STATUS_MEMORY;
}

static int is_number(const char *text)
{
    return *text && text[strspn(text, "-0123456789.")] == '\0';
}

static void lay_out_row(const struct table *table, const struct style *style, const size_t *widths, size_t row,
                        struct strbuf *made)
{
    const char **cells = table->cells.items + row * table->columns;
    for (size_t place = 0; place < table->columns; place++) {
        size_t padding = widths[place] - strlen(cells[place]);
        int to_the_right = is_number(cells[place]);
        strbuf_format(made, "%s", place ? style->between : style->left);
        strbuf_repeat(made, " ", to_the_right ? padding : 0);
        strbuf_format(made, "%s", cells[place]);
        strbuf_repeat(made, " ", to_the_right || (place + 1 == table->columns && !*style->right) ? 0 : padding);
    }
    strbuf_format(made, "%s\n", style->right);
}

static void lay_out_rule(const struct table *table, const struct style *style, const size_t *widths,
                         struct strbuf *made)
{
    strbuf_repeat(made, style->rule, strlen(style->left));
    for (size_t place = 0; place < table->columns; place++) {
        strbuf_format(made, "%s", place ? style->cross : "");
        strbuf_repeat(made, style->rule, widths[place]);
    }
    strbuf_repeat(made, style->rule, strlen(style->right));
    strbuf_literal(made, "\n");
}

enum status table_lay_out(const struct table *table, const char *style_name, struct strbuf *made)
{
    const struct style *style = style_named(style_name);
    size_t *widths = arena_take(table->arena, table->columns * sizeof *widths);
    if (!widths)
        return STATUS_MEMORY;
    for (size_t place = 0; place < table->cells.length; place++) {
        size_t width = strlen(table->cells.items[place]);
        if (width > widths[place % table->columns])
            widths[place % table->columns] = width;
    }
    for (size_t row = 0; row < table->cells.length / table->columns; row++) {
        lay_out_row(table, style, widths, row, made);
        if (row == 0)
            lay_out_rule(table, style, widths, made);
    }
    return made->failed ? STATUS_MEMORY : STATUS_OK;
}

void table_free(struct table *table)
{
    table_cells_free(&table->cells);
}
