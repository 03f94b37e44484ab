/* Included again after a change of CHECKS, as <assert.h> is after one of NDEBUG; so it has no guard. */
#include "compiler.h"
#include <stdio.h>
#include <stdlib.h>

#undef CHECK
#undef UNREACHABLE

#if defined(NDEBUG) && !defined(CHECKS)
#define CHECK(condition) ((void)(condition))
#else
#define CHECK(condition)                                                                              \
    (LIKELY(condition) ? (void)0                                                                      \
                       : (fprintf(stderr, __FILE__ ":" STRINGIFY(__LINE__) ": not so: " #condition "\n"), abort()))
#endif
#define UNREACHABLE() (fprintf(stderr, "%s:%d: in %s\n", __FILE__, __LINE__, __func__), abort())
