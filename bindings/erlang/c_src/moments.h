/* Calls that need a whole moment. */
#ifndef MOMENTS_H
#define MOMENTS_H

#include "handles.h"

/* A call that is refused as DIRTY without a whole moment. */
typedef uint32_t of_moment(struct resource *replica, void *of);

/* A step to a whole moment. */
struct step {
    ERL_NIF_TERM from;    /* `hold', or the portion that was hashed */
    uint64_t most;        /* maximum number of nodes of the next portion */
    ERL_NIF_TERM portion; /* the next portion, after MORE */
};

/* Holds a moment, or installs a portion. Then makes a call of the moment, and drops it, or returns MORE if nodes are
 * left to hash. It is refused as DIRTY if another call has dropped the moment. */
uint32_t call_or_step(ErlNifEnv *env, struct resource *replica, struct step *step, of_moment *call, void *of);

/* Returns the result of a refused call, or for MORE {portion, Portion}. */
ERL_NIF_TERM step_result(ErlNifEnv *env, const struct step *step, uint32_t number);

/* Makes a call in steps for some milliseconds, on a dirty scheduler: hashes the portion in the argument at `place`,
 * outside the gate, and makes the call in it. Other calls pass the gate between two steps. */
ERL_NIF_TERM make_steps(const struct call *call, int place, ErlNifEnv *env, int argc, const ERL_NIF_TERM argv[]);

/* Begins the definition of a step. The argument at `place` is its beginning. */
#define STEP(kind, name, place)                                                                                        \
    static held held_##name;                                                                                           \
    ERL_NIF_TERM nif_##name(ErlNifEnv *env, int argc, const ERL_NIF_TERM argv[])                                       \
    {                                                                                                                  \
        static const struct call call = {kind, false, #name, nif_##name, held_##name};                                 \
        return make_steps(&call, place, env, argc, argv);                                                              \
    }                                                                                                                  \
    static ERL_NIF_TERM held_##name(ErlNifEnv *env, struct resource *at, const ERL_NIF_TERM argv[])

#endif
