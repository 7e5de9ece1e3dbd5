/* The NIF library of the module antientropy_nif: its functions, its start, its upgrade and its end. */
#include "handles.h"
#include "terms.h"
#include "worker.h"

/* Returns 0, or 1 if the library can't be loaded. */
static int load(ErlNifEnv *env, void **data, UNUSED ERL_NIF_TERM info)
{
    make_atoms(env);
    if (!open_types(env))
        return 1;
    *data = start_worker();
    return *data == NULL ? 1 : 0;
}

/* Takes over the handles of another instance, which ends later. Returns 0, or 1 if the library can't be loaded. */
static int upgrade(ErlNifEnv *env, void **data, UNUSED void **old_data, ERL_NIF_TERM info)
{
    return load(env, data, info);
}

static void unload(UNUSED ErlNifEnv *env, void *data)
{
    end_worker(data);
}

#define ROW(name, arity, flags) {#name, arity, nif_##name, flags},
static ErlNifFunc functions[] = {CALLS(ROW)};

ERL_NIF_INIT(antientropy_nif, functions, load, NULL, upgrade, unload)
