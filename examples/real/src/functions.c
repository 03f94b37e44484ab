#include "tabulate/functions.h"
#include "tabulate/compiler.h"

#include <stdint.h>
#include <string.h>

/* The lines below stand for what a generator made of a list of functions. */
#line 1 "functions.list"
enum {
#define FUNCTION(name, arguments, value) FUNCTION_NUMBER_##name,
#include "tabulate/functions.def"
#undef FUNCTION
    FUNCTION_COUNT
};

static double floor_of(double number)
{
    double whole = (double)(int64_t)number;
    return whole > number ? whole - 1 : whole;
}

#define FUNCTION(name, arguments, value)                                 \
    static double PASTE(value_of_, name)(const double *given UNUSED) \
    {                                                                    \
        return value;                                                    \
    }
#include "tabulate/functions.def"
#undef FUNCTION

static const struct function functions[] = {
#define FUNCTION(name, arguments, value) {#name, arguments, PASTE(value_of_, name)},
#include "tabulate/functions.def"
#undef FUNCTION
};

CHECK_STATICALLY(COUNT_OF(functions) == FUNCTION_COUNT, "each function has a number");

const struct function *function_named(const char *name, size_t length)
{
    for (size_t place = 0; place < COUNT_OF(functions); place++)
        if (strlen(functions[place].name) == length && memcmp(functions[place].name, name, length) == 0)
            return &functions[place];
    return NULL;
}
