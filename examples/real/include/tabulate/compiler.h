#pragma once

/* What this compiler can do, told by its own macros. */

#if defined(__clang__)
#define COMPILER_NAME "clang"
#elif defined(__GNUC__)
#define COMPILER_NAME "gcc"
#elif defined(_MSC_VER)
#define COMPILER_NAME "msvc"
#else
#define COMPILER_NAME "unknown"
#endif

#if defined(__clang__) || (defined(__GNUC__) && (__GNUC__ > 4 || (__GNUC__ == 4 && __GNUC_MINOR__ >= 8)))
#define FORMAT_LIKE(place, first) __attribute__((format(printf, place, first)))
#define MUST_USE __attribute__((warn_unused_result))
#define UNUSED __attribute__((unused))
#define LIKELY(condition) __builtin_expect(!!(condition), 1)
#else
#define FORMAT_LIKE(place, first)
#define MUST_USE
#define UNUSED
#define LIKELY(condition) (condition)
#endif

#if defined(__STDC_VERSION__) && __STDC_VERSION__ >= 201112L
#define THREAD_LOCAL _Thread_local
#define CHECK_STATICALLY(condition, why) _Static_assert(condition, why)
#else
#define THREAD_LOCAL
#define CHECK_STATICALLY(condition, why) \
    typedef char PASTE(checked_at_, __LINE__)[(condition) ? 1 : -1]
#endif

#define STRINGIFY_TOKENS(...) #__VA_ARGS__
#define STRINGIFY(...) STRINGIFY_TOKENS(__VA_ARGS__)
#define PASTE_TOKENS(left, right) left##right
#define PASTE(left, right) PASTE_TOKENS(left, right)
#define COUNT_OF(array) (sizeof(array) / sizeof((array)[0]))
