/* The thread of the NIF library. */
#include "worker.h"

/* Each instance of the module has one as its private data. */
struct worker {
    ErlNifTid thread;
    ErlNifMutex *lock;
    ErlNifCond *posted; /* a job was posted, or the worker is to end */
    struct job *first;
    struct job **last;  /* link after the last job */
    bool is_over;
};

/* Returns the first job after it has waited for one, or NULL at the end. */
static struct job *next_job(struct worker *worker)
{
    enif_mutex_lock(worker->lock);
    while (worker->first == NULL && !worker->is_over)
        enif_cond_wait(worker->posted, worker->lock);
    struct job *job = worker->first;
    if (job != NULL)
        worker->first = job->next;
    if (worker->first == NULL)
        worker->last = &worker->first;
    enif_mutex_unlock(worker->lock);
    return job;
}

static void *run_jobs(void *started)
{
    struct worker *worker = started;
    struct job *job;
    while ((job = next_job(worker)) != NULL)
        job->run(job);
    return NULL;
}

static void drop_worker(struct worker *worker)
{
    if (worker->posted != NULL)
        enif_cond_destroy(worker->posted);
    if (worker->lock != NULL)
        enif_mutex_destroy(worker->lock);
    enif_free(worker);
}

struct worker *start_worker(void)
{
    struct worker *worker = enif_alloc(sizeof *worker);
    if (worker == NULL)
        return NULL;
    *worker = (struct worker){
        .lock = enif_mutex_create("antientropy_jobs"),
        .posted = enif_cond_create("antientropy_posted"),
        .last = &worker->first,
    };
    if (worker->lock == NULL || worker->posted == NULL
        || enif_thread_create("antientropy", &worker->thread, run_jobs, worker, NULL) != 0) {
        drop_worker(worker);
        return NULL;
    }
    return worker;
}

void end_worker(struct worker *worker)
{
    enif_mutex_lock(worker->lock);
    worker->is_over = true;
    enif_cond_signal(worker->posted);
    enif_mutex_unlock(worker->lock);
    enif_thread_join(worker->thread, NULL);
    drop_worker(worker);
}

void post(ErlNifEnv *env, struct job *job)
{
    struct worker *worker = enif_priv_data(env);
    job->next = NULL;
    enif_mutex_lock(worker->lock);
    *worker->last = job;
    worker->last = &job->next;
    enif_cond_signal(worker->posted);
    enif_mutex_unlock(worker->lock);
}
