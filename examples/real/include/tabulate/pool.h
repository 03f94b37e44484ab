#ifndef TABULATE_POOL_H
#define TABULATE_POOL_H

#include <stddef.h>
#include "status.h"

typedef enum status pool_task(void *context, size_t number);

/* Does the tasks below a number on several threads; the status is that of the lowest task that failed. */
enum status pool_run(size_t tasks, pool_task *task, void *context);

#endif
