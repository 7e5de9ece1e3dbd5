/* A thread of the NIF library, for work that no scheduler may do. */
#ifndef WORKER_H
#define WORKER_H

#include <erl_nif.h>
#include <stdbool.h>

/* A piece of work. `run` may free it. */
struct job {
    void (*run)(struct job *job);
    struct job *next;
};

struct worker;

/* Starts a worker, or returns NULL without memory or threads. */
struct worker *start_worker(void);

/* Ends a worker after its jobs, and frees it. */
void end_worker(struct worker *worker);

/* Lets the worker of the NIF library run a job after those before it. */
void post(ErlNifEnv *env, struct job *job);

#endif
