/* Renewals that calls start: a replica that is kept renewed says when one is due. */
#include "keeper.h"

#include "handles.h"
#include "terms.h"

/* Time after which another process is asked for a renewal, since the one before may have been killed. */
enum { ASK_AGAIN_MS = 100 };

static ErlNifTime now_ms(void)
{
    return enif_monotonic_time(ERL_NIF_MSEC);
}

/* Returns true if nine tenths of the limit are used, and half of the entries that the last renewal left free. */
static bool is_due_at(const struct keeper *keeper, uint64_t entries)
{
    uint64_t used = entries - keeper->first;
    return used * 10 >= keeper->limit * 9 && used > keeper->held
        && (used - keeper->held) * 2 >= keeper->limit - keeper->held;
}

/* Returns true if a renewal is due now, and none is in progress. */
static bool is_due(const struct resource *at)
{
    struct antientropy_about about;
    return at->keeper.is_on && !at->keeper.is_at_work
        && antientropy_about(&at->replica, &about) == ANTIENTROPY_OK && is_due_at(&at->keeper, about.entries);
}

/* Notes the bounds of the journal, and counts it. */
static uint32_t note_journal(struct resource *at, struct antientropy_counts *counts)
{
    uint32_t number = antientropy_count(&at->replica, counts);
    if (number == ANTIENTROPY_OK) {
        at->keeper.limit = counts->limit;
        at->keeper.first = counts->first;
        at->keeper.ask_from = now_ms();
    }
    return number;
}

void note_renewed(struct resource *replica)
{
    struct antientropy_counts counts;
    if (note_journal(replica, &counts) == ANTIENTROPY_OK)
        replica->keeper.held = counts.entries - counts.first;
}

ERL_NIF_TERM after_change(ErlNifEnv *env, struct resource *replica, ERL_NIF_TERM result)
{
    if (!is_due(replica) || now_ms() < replica->keeper.ask_from)
        return result;
    replica->keeper.ask_from = now_ms() + ASK_AGAIN_MS;
    return enif_make_tuple3(env, atoms.renew, enif_make_resource(env, replica), result);
}

/* keep_renewed(Replica) -> ok | {renew, Replica, ok} */
CALL(REPLICA, keep_renewed)
{
    struct antientropy_counts counts;
    uint32_t number = note_journal(at, &counts);
    if (number != ANTIENTROPY_OK)
        return refused(env, number);
    at->keeper.is_on = true;
    return after_change(env, at, atoms.ok);
}

/* Begins a renewal with the replica's limit if it is due. due_renewal(Replica) -> {ok, Renewal, Limit} | ok */
CALL(REPLICA, due_renewal)
{
    if (!is_due(at))
        return atoms.ok;
    struct resource *made = make_part(RENEWAL, at);
    if (made == NULL)
        return refused(env, ANTIENTROPY_NO_MEMORY);
    at->keeper.is_at_work = true;
    made->is_kept = true;
    ERL_NIF_TERM renewal = enif_make_resource(env, made);
    enif_release_resource(made);
    return enif_make_tuple3(env, atoms.ok, renewal, enif_make_uint64(env, at->keeper.limit));
}

void end_kept(struct resource *renewal)
{
    if (renewal->is_kept)
        renewal->of->keeper.is_at_work = false;
    renewal->is_kept = false;
}
