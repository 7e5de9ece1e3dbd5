/* When a replica is to be renewed by itself. */
#ifndef KEEPER_H
#define KEEPER_H

#include <erl_nif.h>
#include <stdbool.h>
#include <stdint.h>

struct resource;

/* Says when a renewal of a replica is due. Calls in the replica's gate use it. */
struct keeper {
    bool is_on;               /* the replica is kept renewed */
    _Atomic(bool) is_at_work; /* a process renews it. The destructor of its renewal ends that, outside the gate */
    ErlNifTime ask_from;      /* time in milliseconds from which a process may be asked for a renewal */
    uint64_t limit;           /* maximum number of the journal's entries */
    uint64_t first;           /* number of the journal's first entry */
    uint64_t held;            /* number of entries that the last renewal left: 0 before the first one */
};

/* Notes the journal that a renewal left. */
void note_renewed(struct resource *replica);

/* Ends the work of a process that renews a kept replica, if the renewal is such a one. */
void end_kept(struct resource *renewal);

/* Returns the result of a call that may have changed the replica, or {renew, Replica, Result} to ask for a process
 * that renews it, if that is due. */
ERL_NIF_TERM after_change(ErlNifEnv *env, struct resource *replica, ERL_NIF_TERM result);

#endif
