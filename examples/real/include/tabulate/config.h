#ifndef TABULATE_CONFIG_H
#define TABULATE_CONFIG_H

/* Choices that a user may make with -D. */

#ifndef TABULATE_STYLE
#define TABULATE_STYLE plain
#endif

#ifndef TABULATE_THREADS
#define TABULATE_THREADS 3
#endif

#if TABULATE_THREADS < 1 || TABULATE_THREADS > 64
#error TABULATE_THREADS must be between 1 and 64
#endif

#define TABULATE_MAJOR 1
#define TABULATE_MINOR 4

#endif
