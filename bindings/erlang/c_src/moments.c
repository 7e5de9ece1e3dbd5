/* Moments: the rows of a replica at a time. They are hashed in portions, outside the replica's gate. */
#include "moments.h"

#include <string.h>

#include "leftovers.h"
#include "terms.h"

/* Time for which one call makes steps. */
enum { STEPS_MS = 10 };

/* Maximum number of a step's arguments. */
enum { STEP_ARGUMENTS = 6 };

/* hold(Replica) -> ok */
CALL(REPLICA, hold)
{
    return done(env, antientropy_hold(&at->replica));
}

/* drop_moment(Replica) -> ok */
CALL(REPLICA, drop_moment)
{
    return done(env, antientropy_drop_moment(&at->replica));
}

/* moment(Replica) -> {ok, Snapshot} */
READ(REPLICA, moment)
{
    struct resource *made = make_resource(SNAPSHOT);
    if (made == NULL)
        return refused(env, ANTIENTROPY_NO_MEMORY);
    return handle_result(env, made, antientropy_moment(&at->replica, &made->snapshot));
}

/* ---- portions */

/* Makes a portion of the moment's nodes. */
static uint32_t take_portion(ErlNifEnv *env, struct resource *replica, uint64_t most, ERL_NIF_TERM *portion)
{
    struct resource *made = make_part(PORTION, replica);
    if (made == NULL)
        return ANTIENTROPY_NO_MEMORY;
    uint32_t number = antientropy_take_portion(&replica->replica, most, &made->portion);
    if (number == ANTIENTROPY_OK)
        *portion = enif_make_resource(env, made);
    enif_release_resource(made);
    return number;
}

/* Installs the digests of a portion, and counts the moment's nodes without a digest. */
static uint32_t install_portion(ErlNifEnv *env, struct resource *replica, ERL_NIF_TERM portion, uint64_t *left)
{
    struct resource *taken = get_resource(env, portion, PORTION);
    if (taken == NULL || !claim(taken))
        return BADARG;
    uint32_t number = antientropy_install_portion(&replica->replica, &taken->portion, left);
    disclaim(taken);
    return number;
}

/* take_portion(Replica, Most) -> {portion, Portion} */
CALL(REPLICA, take_portion)
{
    struct step step;
    if (!get_u64(env, argv[1], &step.most))
        return WRONG;
    uint32_t number = take_portion(env, at, step.most, &step.portion);
    return step_result(env, &step, number == ANTIENTROPY_OK ? MORE : number);
}

/* Hashes a portion, unless that is done. Returns false if the term isn't a portion, or if another call uses it. */
static bool hash_portion(ErlNifEnv *env, ERL_NIF_TERM portion)
{
    struct resource *taken = get_resource(env, portion, PORTION);
    if (taken == NULL || !claim(taken))
        return false;
    if (!taken->is_hashed)
        taken->is_hashed = antientropy_hash_portion(&taken->portion) == ANTIENTROPY_OK;
    disclaim(taken);
    return true;
}

/* hash_portion(Portion) -> ok */
FUNCTION(hash_portion)
{
    return hash_portion(env, argv[0]) ? atoms.ok : WRONG;
}

/* install_portion(Replica, Portion) -> {ok, Left} */
CALL(REPLICA, install_portion)
{
    uint64_t left;
    uint32_t number = install_portion(env, at, argv[1], &left);
    return number == ANTIENTROPY_OK ? ok(env, enif_make_uint64(env, left)) : refused(env, number);
}

/* ---- steps */

/* Makes a call of the moment, and then drops the moment: its rows stay with the result of the call, and no later hold
 * frees them in the gate. */
static uint32_t call_and_drop(struct resource *replica, of_moment *call, void *of)
{
    uint32_t number = call(replica, of);
    if (number != ANTIENTROPY_DIRTY)
        antientropy_drop_moment(&replica->replica);
    return number;
}

uint32_t call_or_step(ErlNifEnv *env, struct resource *replica, struct step *step, of_moment *call, void *of)
{
    uint64_t left = UINT64_MAX;
    uint32_t number = step->from == atoms.hold ? antientropy_hold(&replica->replica)
                                               : install_portion(env, replica, step->from, &left);
    if (number == ANTIENTROPY_OK)
        number = call_and_drop(replica, call, of);
    if (number != ANTIENTROPY_DIRTY || left == 0)
        return number;
    number = take_portion(env, replica, step->most, &step->portion);
    return number == ANTIENTROPY_OK ? MORE : number;
}

ERL_NIF_TERM step_result(ErlNifEnv *env, const struct step *step, uint32_t number)
{
    return number == MORE ? enif_make_tuple2(env, atoms.portion, step->portion) : refused(env, number);
}

/* Returns true if a step has made another portion. */
static bool is_portion(ErlNifEnv *env, ERL_NIF_TERM result, ERL_NIF_TERM *portion)
{
    const ERL_NIF_TERM *parts;
    int arity;
    if (!enif_get_tuple(env, result, &arity, &parts) || arity != 2 || parts[0] != atoms.portion)
        return false;
    *portion = parts[1];
    return true;
}

ERL_NIF_TERM make_steps(const struct call *call, int place, ErlNifEnv *env, int argc, const ERL_NIF_TERM argv[])
{
    ERL_NIF_TERM result, next[STEP_ARGUMENTS];
    ErlNifTime end = enif_monotonic_time(ERL_NIF_MSEC) + STEPS_MS;
    memcpy(next, argv, (size_t)argc * sizeof *next);
    do {
        hash_portion(env, next[place]);
        result = with_gate(call, env, argc, next);
    } while (is_portion(env, result, &next[place]) && enif_monotonic_time(ERL_NIF_MSEC) < end);
    return result;
}

/* Makes the snapshot of the moment. */
static uint32_t fill(struct resource *replica, void *of)
{
    return antientropy_moment(&replica->replica, of);
}

/* snapshot_of_moment(Replica, From, Most) -> {ok, Snapshot} | {portion, Portion} */
STEP(REPLICA, snapshot_of_moment, 1)
{
    struct step step = {.from = argv[1]};
    if (!get_u64(env, argv[2], &step.most))
        return WRONG;
    struct resource *made = make_resource(SNAPSHOT);
    if (made == NULL)
        return refused(env, ANTIENTROPY_NO_MEMORY);
    uint32_t number = call_or_step(env, at, &step, fill, &made->snapshot);
    if (number == ANTIENTROPY_OK)
        return handle_result(env, made, number);
    enif_release_resource(made);
    return step_result(env, &step, number);
}

/* An exchange that is opened with a partner's offer. The moment's snapshot is freed in the worker: if no session is
 * opened, nothing else has the rows that have changed since. */
struct opening {
    struct antientropy_exchange exchange;
    uint64_t partner;
    ErlNifBinary offer;
    struct antientropy_bounds bounds;
    struct antientropy_snapshot moment;
};

/* Opens the exchange at the moment. */
static uint32_t open_exchange(struct resource *replica, void *of)
{
    struct opening *opening = of;
    close_orphans(replica);
    uint32_t number = antientropy_exchange_open(&replica->replica, &opening->exchange, opening->partner,
                                                opening->offer.data, opening->offer.size, &opening->bounds);
    if (number == ANTIENTROPY_OK)
        antientropy_moment(&replica->replica, &opening->moment);
    return number;
}

static bool get_bounds(ErlNifEnv *env, ERL_NIF_TERM map, struct antientropy_bounds *bounds, bool *is_plain)
{
    ERL_NIF_TERM asks, bytes, bad, lost, plain;
    return enif_get_map_value(env, map, atoms.asks, &asks) && get_u64(env, asks, &bounds->asks)
        && enif_get_map_value(env, map, atoms.bytes, &bytes) && get_u64(env, bytes, &bounds->bytes)
        && enif_get_map_value(env, map, atoms.bad, &bad) && get_u64(env, bad, &bounds->bad)
        && enif_get_map_value(env, map, atoms.lost, &lost) && get_u64(env, lost, &bounds->lost)
        && enif_get_map_value(env, map, atoms.plain, &plain) && get_bool(plain, is_plain);
}

/* exchange_of_moment(Replica, Partner, Offer, Bounds, From, Most) -> {ok, Exchange} | {portion, Portion} */
STEP(REPLICA, exchange_of_moment, 4)
{
    bool is_plain;
    struct step step = {.from = argv[4]};
    struct opening opening = {0};
    if (!get_u64(env, argv[1], &opening.partner) || !get_bounds(env, argv[3], &opening.bounds, &is_plain)
        || !get_u64(env, argv[5], &step.most))
        return WRONG;
    uint32_t number = get_bytes(env, argv[2], &opening.offer);
    if (number != ANTIENTROPY_OK)
        return refused(env, number);
    struct resource *made = make_part(EXCHANGE, at);
    if (made == NULL)
        return refused(env, ANTIENTROPY_NO_MEMORY);
    number = call_or_step(env, at, &step, open_exchange, &opening);
    free_later(env, &(struct leftovers){.snapshot = opening.moment});
    if (number == ANTIENTROPY_OK) {
        made->exchange = opening.exchange;
        made->is_plain = is_plain;
        return handle_result(env, made, number);
    }
    enif_release_resource(made);
    return step_result(env, &step, number);
}
