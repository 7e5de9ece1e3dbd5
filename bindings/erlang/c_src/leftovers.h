/* Handles that are freed in the worker, since that may take long. */
#ifndef LEFTOVERS_H
#define LEFTOVERS_H

#include <erl_nif.h>

#include "antientropy.h"

/* Handles to free. Any of them may be empty. */
struct leftovers {
    struct antientropy_replica replica;
    struct antientropy_snapshot snapshot;
    struct antientropy_renewal renewal;
    struct antientropy_hints hints;
};

/* Frees handles in the worker, or in this thread if they are small, or without memory. */
void free_later(ErlNifEnv *env, struct leftovers *leftovers);

#endif
