/* Handles that are freed in the worker. */
#include "leftovers.h"

#include <stdbool.h>
#include <stddef.h>

#include "worker.h"

/* Entries and hints that are freed in far less than a millisecond. */
enum { FEW_ENTRIES = 256 };

struct free_job {
    struct job job;
    struct leftovers leftovers;
};

static void free_all(struct leftovers *leftovers)
{
    antientropy_free(&leftovers->replica);
    antientropy_snapshot_free(&leftovers->snapshot);
    antientropy_renewal_free(&leftovers->renewal);
    antientropy_hints_free(&leftovers->hints);
}

static void run(struct job *job)
{
    struct free_job *freed = (struct free_job *)((char *)job - offsetof(struct free_job, job));
    free_all(&freed->leftovers);
    enif_free(freed);
}

/* Returns true if the handles are freed in a short time. A renewal has a replica of unknown size. */
static bool are_small(struct leftovers *leftovers)
{
    struct antientropy_about about = {0};
    struct antientropy_hint_counts hints = {0};
    uint64_t entries = 0;
    if (antientropy_about(&leftovers->replica, &about) == ANTIENTROPY_OK)
        entries += about.entries;
    if (antientropy_snapshot_about(&leftovers->snapshot, &about) == ANTIENTROPY_OK)
        entries += about.entries;
    if (antientropy_hints_count(&leftovers->hints, &hints) == ANTIENTROPY_OK)
        entries += hints.pending + hints.delivered;
    return entries <= FEW_ENTRIES && !leftovers->renewal.held;
}

void free_later(ErlNifEnv *env, struct leftovers *leftovers)
{
    struct free_job *freed = are_small(leftovers) ? NULL : enif_alloc(sizeof *freed);
    if (freed == NULL) {
        free_all(leftovers);
        return;
    }
    *freed = (struct free_job){.job = {.run = run}, .leftovers = *leftovers};
    post(env, &freed->job);
}
