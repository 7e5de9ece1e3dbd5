/* Handles as resources. */
#include "handles.h"

#include <stdatomic.h>
#include <string.h>

#include "leftovers.h"
#include "terms.h"

static ErlNifResourceType *types[KINDS];

void close_orphans(struct resource *replica)
{
    struct orphan *next, *orphan = atomic_exchange(&replica->orphans, NULL);
    if (orphan == NULL)
        return;
    for (; orphan != NULL; orphan = next) {
        next = orphan->next;
        antientropy_exchange_close(&orphan->exchange, &replica->replica);
        antientropy_exchange_free(&orphan->exchange);
        enif_free(orphan);
    }
    antientropy_drop_sessions(&replica->replica);
}

/* ---- destructors, which may run on a normal scheduler */

static void drop_replica(ErlNifEnv *env, void *dropped)
{
    struct resource *at = dropped;
    for (struct orphan *next, *orphan = atomic_load(&at->orphans); orphan != NULL; orphan = next) {
        next = orphan->next;
        antientropy_exchange_free(&orphan->exchange);
        enif_free(orphan);
    }
    free_later(env, &(struct leftovers){.replica = at->replica});
    drop_gate(&at->gate);
}

static void drop_snapshot(ErlNifEnv *env, void *dropped)
{
    struct resource *at = dropped;
    free_later(env, &(struct leftovers){.snapshot = at->snapshot});
    drop_gate(&at->gate);
}

/* Leaves an exchange to its replica, since a destructor isn't in the gate. */
static void drop_exchange(UNUSED ErlNifEnv *env, void *dropped)
{
    struct resource *at = dropped;
    struct orphan *orphan = at->exchange.held ? enif_alloc(sizeof *orphan) : NULL;
    if (orphan != NULL) {
        orphan->exchange = at->exchange;
        orphan->next = atomic_load(&at->of->orphans);
        while (!atomic_compare_exchange_weak(&at->of->orphans, &orphan->next, orphan))
            ;
    } else {
        antientropy_exchange_free(&at->exchange);
    }
    enif_release_resource(at->of);
}

static void drop_renewal(ErlNifEnv *env, void *dropped)
{
    struct resource *at = dropped;
    free_later(env, &(struct leftovers){.renewal = at->renewal});
    if (at->is_kept)
        atomic_store(&at->of->keeper.is_at_work, false);
    enif_release_resource(at->of);
}

static void drop_portion(UNUSED ErlNifEnv *env, void *dropped)
{
    struct resource *at = dropped;
    antientropy_portion_free(&at->portion);
    enif_release_resource(at->of);
}

static void drop_hints(ErlNifEnv *env, void *dropped)
{
    struct resource *at = dropped;
    free_later(env, &(struct leftovers){.hints = at->hints});
    drop_gate(&at->gate);
}

static void drop_slots(UNUSED ErlNifEnv *env, void *dropped)
{
    struct resource *at = dropped;
    antientropy_slots_free(&at->slots);
    drop_gate(&at->gate);
}

/* A process died that had been called to the gate of a resource. */
static void process_died(ErlNifEnv *env, void *of, UNUSED ErlNifPid *process, ErlNifMonitor *monitor)
{
    struct resource *at = of;
    give_back(env, &at->gate, monitor);
}

bool open_types(ErlNifEnv *env)
{
    static const struct {
        const char *name;
        ErlNifResourceDtor *drop;
    } kinds[KINDS] = {
        [REPLICA] = {"antientropy_replica", drop_replica},
        [SNAPSHOT] = {"antientropy_snapshot", drop_snapshot},
        [EXCHANGE] = {"antientropy_exchange", drop_exchange},
        [RENEWAL] = {"antientropy_renewal", drop_renewal},
        [PORTION] = {"antientropy_portion", drop_portion},
        [HINTS] = {"antientropy_hints", drop_hints},
        [SLOTS] = {"antientropy_slots", drop_slots},
    };
    for (int kind = 0; kind < KINDS; kind++) {
        const ErlNifResourceTypeInit callbacks = {.dtor = kinds[kind].drop, .down = process_died};
        types[kind] = enif_open_resource_type_x(env, kinds[kind].name, &callbacks,
                                                ERL_NIF_RT_CREATE | ERL_NIF_RT_TAKEOVER, NULL);
        if (types[kind] == NULL)
            return false;
    }
    return true;
}

/* ---- calls */

static ERL_NIF_TERM bool_atom(bool flag)
{
    return flag ? atoms.yes : atoms.no;
}

/* Returns {Atom, Name, Arguments, Reads, IsLong} for a call. */
static ERL_NIF_TERM call_term(ErlNifEnv *env, ERL_NIF_TERM atom, const struct call *call, int argc,
                              const ERL_NIF_TERM argv[])
{
    ERL_NIF_TERM name = enif_make_atom(env, call->name);
    ERL_NIF_TERM arguments = enif_make_list_from_array(env, argv, (unsigned)argc);
    return enif_make_tuple5(env, atom, name, arguments, bool_atom(call->reads), bool_atom(!on_normal_scheduler()));
}

ERL_NIF_TERM finished(const struct call *call, ErlNifEnv *env, ERL_NIF_TERM result, int argc,
                      const ERL_NIF_TERM argv[])
{
    if (result == ELSEWHERE)
        return enif_schedule_nif(env, call->name, ERL_NIF_DIRTY_JOB_CPU_BOUND, call->again, argc, argv);
    return result == WRONG ? call_term(env, WRONG, call, argc, argv) : result;
}

/* Returns the gate that calls of a handle pass. */
static struct gate *gate_of(struct resource *at)
{
    return at->of == NULL ? &at->gate : &at->of->gate;
}

struct resource *get_resource(ErlNifEnv *env, ERL_NIF_TERM term, enum kind kind)
{
    void *found;
    return enif_get_resource(env, term, types[kind], &found) ? found : NULL;
}

/* Reads that take one percent of a process's turn on its scheduler. A change takes one percent, too. */
enum { READS_A_PERCENT = 4 };

/* Counts a call, so that a process that calls without pause leaves its scheduler after some hundred calls. */
static void count_call(ErlNifEnv *env, bool reads)
{
    static _Thread_local unsigned count;
    if (!reads || ++count % READS_A_PERCENT == 0)
        enif_consume_timeslice(env, 1);
}

ERL_NIF_TERM with_gate(const struct call *call, ErlNifEnv *env, int argc, const ERL_NIF_TERM argv[])
{
    struct resource *at = get_resource(env, argv[0], call->kind);
    if (at == NULL)
        return finished(call, env, WRONG, argc, argv);
    struct gate *gate = gate_of(at);
    enum entry entry = enter(env, gate, call->reads);
    if (entry == TAKEN)
        return call_term(env, atoms.wait, call, argc, argv);
    if (entry == GO_ELSEWHERE)
        return finished(call, env, ELSEWHERE, argc, argv);
    ERL_NIF_TERM result = call->held(env, at, argv);
    leave(env, gate, call->reads);
    count_call(env, call->reads);
    return finished(call, env, result, argc, argv);
}

/* Puts the calling process into the line of a handle's gate. It gets the message `Turn' when it has the gate.
 * wait(Handle, Reads, IsLong, Turn) -> ok */
FUNCTION(wait)
{
    struct use use;
    if (!get_bool(argv[1], &use.reads) || !get_bool(argv[2], &use.is_long) || !enif_is_ref(env, argv[3]))
        return WRONG;
    for (enum kind kind = 0; kind < KINDS; kind++) {
        struct resource *at = get_resource(env, argv[0], kind);
        if (at != NULL)
            return done(env, stand_in_line(env, gate_of(at), use, argv[3]) ? ANTIENTROPY_OK : ANTIENTROPY_NO_MEMORY);
    }
    return WRONG;
}

bool claim(struct resource *part)
{
    return !atomic_exchange(&part->is_claimed, true);
}

void disclaim(struct resource *part)
{
    atomic_store(&part->is_claimed, false);
}

/* ---- resources */

static struct resource *make_zero(enum kind kind)
{
    struct resource *made = enif_alloc_resource(types[kind], sizeof *made);
    return made == NULL ? NULL : memset(made, 0, sizeof *made);
}

struct resource *make_part(enum kind kind, struct resource *replica)
{
    struct resource *made = make_zero(kind);
    if (made == NULL)
        return NULL;
    enif_keep_resource(replica);
    made->of = replica;
    return made;
}

struct resource *make_resource(enum kind kind)
{
    struct resource *made = make_zero(kind);
    if (made == NULL)
        return NULL;
    if (!make_gate(&made->gate, made)) {
        enif_release_resource(made);
        return NULL;
    }
    return made;
}

ERL_NIF_TERM handle_result(ErlNifEnv *env, struct resource *made, uint32_t number)
{
    ERL_NIF_TERM result = number == ANTIENTROPY_OK ? ok(env, enif_make_resource(env, made)) : refused(env, number);
    enif_release_resource(made);
    return result;
}
