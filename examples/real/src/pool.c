#include "tabulate/pool.h"
#include "tabulate/config.h"
#include "tabulate/log.h"

#include <pthread.h>

struct pool {
    pthread_mutex_t lock;
    size_t next, tasks, failed;
    enum status status;
    pool_task *task;
    void *context;
};

static THREAD_LOCAL size_t tasks_of_thread;

static void keep_failure(struct pool *pool, size_t number, enum status status)
{
    if (status != STATUS_OK && number < pool->failed) {
        pool->failed = number;
        pool->status = status;
    }
}

static void *work(void *context)
{
    struct pool *pool = context;
    tasks_of_thread = 0;
    pthread_mutex_lock(&pool->lock);
    while (pool->next < pool->tasks) {
        size_t number = pool->next++;
        pthread_mutex_unlock(&pool->lock);
        enum status status = pool->task(pool->context, number);
        tasks_of_thread++;
        pthread_mutex_lock(&pool->lock);
        keep_failure(pool, number, status);
    }
    pthread_mutex_unlock(&pool->lock);
    LOG(DEBUG, "a thread did %zu tasks", tasks_of_thread);
    return NULL;
}

enum status pool_run(size_t tasks, pool_task *task, void *context)
{
    struct pool pool = {PTHREAD_MUTEX_INITIALIZER, 0, tasks, tasks, STATUS_OK, task, context};
    pthread_t threads[TABULATE_THREADS];
    size_t started = 0;
    while (started < TABULATE_THREADS - 1 && pthread_create(&threads[started], NULL, work, &pool) == 0)
        started++;
    work(&pool);
    while (started > 0)
        pthread_join(threads[--started], NULL);
    pthread_mutex_destroy(&pool.lock);
    return pool.status;
}
