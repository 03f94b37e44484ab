#include "tabulate/expr.h"
#include "tabulate/functions.h"
#include "tabulate/token.h"

#define CHECKS
#include "tabulate/check.h"

enum expr_kind { EXPR_NUMBER, EXPR_NAME, EXPR_NEGATED, EXPR_CALL, EXPR_OPERATOR };

struct expr {
    enum expr_kind kind;
    enum token_kind operator;
    double number;
    const char *name;
    const struct function *function;
    const struct expr *parts[MOST_ARGUMENTS];
};

struct reader {
    struct arena *arena;
    const char *text;
    struct token token;
    const char *wrong;
    enum status status;
};

static void next(struct reader *reader)
{
    reader->token = token_next(&reader->text);
}

static struct expr *fail(struct reader *reader, enum status status, const char *wrong)
{
    if (reader->status == STATUS_OK) {
        reader->status = status;
        reader->wrong = wrong;
    }
    return NULL;
}

static struct expr *made(struct reader *reader, enum expr_kind kind)
{
    struct expr *expr = ARENA_NEW(reader->arena, struct expr);
    if (!expr)
        return fail(reader, STATUS_MEMORY, "");
    expr->kind = kind;
    return expr;
}

static int takes(struct reader *reader, enum token_kind kind)
{
    if (reader->token.kind != kind)
        return 0;
    next(reader);
    return 1;
}

static int wants(struct reader *reader, enum token_kind kind)
{
    if (!takes(reader, kind))
        fail(reader, STATUS_EXPRESSION, token_shown(reader->token.kind));
    return reader->status == STATUS_OK;
}

static int level_of(enum token_kind kind)
{
    switch (kind) {
#define OPERATOR(token, level, value) case TOKEN_##token: return level;
#include "tabulate/operators.def"
#undef OPERATOR
    default:
        return 0;
    }
}

static struct expr *operation(struct reader *reader, int level);

static struct expr *call(struct reader *reader, struct token name)
{
    struct expr *expr = made(reader, EXPR_CALL);
    if (!expr)
        return NULL;
    expr->function = function_named(name.start, name.length);
    if (!expr->function)
        return fail(reader, STATUS_NAME, arena_text(reader->arena, name.start, name.length));
    CHECK(expr->function->arguments <= COUNT_OF(expr->parts));
    for (size_t place = 0; place < expr->function->arguments; place++) {
        if (place > 0 && !wants(reader, TOKEN_COMMA))
            return NULL;
        expr->parts[place] = operation(reader, 1);
    }
    return wants(reader, TOKEN_CLOSE) ? expr : NULL;
}

static struct expr *named(struct reader *reader)
{
    struct token name = reader->token;
    next(reader);
    if (takes(reader, TOKEN_OPEN))
        return call(reader, name);
    struct expr *expr = made(reader, EXPR_NAME);
    if (expr && !(expr->name = arena_text(reader->arena, name.start, name.length)))
        return fail(reader, STATUS_MEMORY, "");
    return expr;
}

static struct expr *operand(struct reader *reader)
{
    struct expr *expr = NULL;
    switch (reader->token.kind) {
    case TOKEN_NUMBER:
        if ((expr = made(reader, EXPR_NUMBER)))
            expr->number = reader->token.number;
        next(reader);
        return expr;
    case TOKEN_NAME:
        return named(reader);
    case TOKEN_MINUS:
        next(reader);
        if ((expr = made(reader, EXPR_NEGATED)))
            expr->parts[0] = operand(reader);
        return expr;
    case TOKEN_OPEN:
        next(reader);
        expr = operation(reader, 1);
        return wants(reader, TOKEN_CLOSE) ? expr : NULL;
    default:
        return fail(reader, STATUS_EXPRESSION, token_shown(reader->token.kind));
    }
}

static struct expr *operation(struct reader *reader, int level)
{
    struct expr *left = operand(reader);
    while (left && level_of(reader->token.kind) >= level) {
        struct expr *expr = made(reader, EXPR_OPERATOR);
        if (!expr)
            return NULL;
        expr->operator = reader->token.kind;
        next(reader);
        expr->parts[0] = left;
        expr->parts[1] = operation(reader, level_of(expr->operator) + 1);
        left = expr;
    }
    return left;
}

enum status expr_read(struct arena *arena, const char *text, const struct expr **expr, const char **wrong)
{
    struct reader reader = {.arena = arena, .text = text, .status = STATUS_OK};
    next(&reader);
    *expr = operation(&reader, 1);
    if (reader.status == STATUS_OK && reader.token.kind != TOKEN_END)
        fail(&reader, STATUS_EXPRESSION, token_shown(reader.token.kind));
    *wrong = reader.wrong;
    return reader.status;
}

static double value_of_operation(enum token_kind kind, double left, double right)
{
    switch (kind) {
#define OPERATOR(token, level, value) case TOKEN_##token: return value;
#include "tabulate/operators.def"
#undef OPERATOR
    default:
        UNREACHABLE();
    }
    return 0;
}

enum status expr_value(const struct expr *expr, const struct hashmap *names, double *value, const char **wrong)
{
    double given[MOST_ARGUMENTS] = {0};
    for (size_t place = 0; place < MOST_ARGUMENTS && expr->parts[place]; place++)
        RETURN_UNLESS_OK(expr_value(expr->parts[place], names, &given[place], wrong));
    const double *found;
    switch (expr->kind) {
    case EXPR_NUMBER:
        *value = expr->number;
        break;
    case EXPR_NAME:
        found = hashmap_get(names, expr->name);
        if (!found) {
            *wrong = expr->name;
            return STATUS_NAME;
        }
        *value = *found;
        break;
    case EXPR_NEGATED:
        *value = -given[0];
        break;
    case EXPR_CALL:
        *value = expr->function->value(given);
        break;
    case EXPR_OPERATOR:
        *value = value_of_operation(expr->operator, given[0], given[1]);
        break;
    }
    return STATUS_OK;
}
