/* Handles of the library as resources of Erlang, each with a gate. */
#ifndef HANDLES_H
#define HANDLES_H

#include <erl_nif.h>
#include <stdint.h>

#include "antientropy.h"
#include "calls.h"
#include "gate.h"
#include "keeper.h"

#define UNUSED __attribute__((unused))

enum kind { REPLICA, SNAPSHOT, EXCHANGE, RENEWAL, PORTION, HINTS, SLOTS, KINDS };

/* An exchange that no process has any more. */
struct orphan {
    struct antientropy_exchange exchange;
    struct orphan *next;
};

/* An exchange, a renewal and a portion are parts of a replica: they keep its resource, and calls of them pass its gate.
 * A replica keeps its orphans until they are closed. */
struct resource {
    struct gate gate;
    struct resource *of;
    _Atomic(struct orphan *) orphans;
    struct keeper keeper;
    _Atomic(bool) is_claimed; /* a call uses a renewal or a portion, maybe without the gate */
    bool is_kept;             /* the keeper asked for this renewal, and it hasn't ended */
    bool is_hashed;           /* a portion's: its nodes have their digests */
    bool is_plain;            /* an exchange's: no ask is an outline */
    union {
        struct antientropy_replica replica;
        struct antientropy_snapshot snapshot;
        struct antientropy_exchange exchange;
        struct antientropy_renewal renewal;
        struct antientropy_portion portion;
        struct antientropy_hints hints;
        struct antientropy_slots slots;
    };
};

/* A function of the NIF library. */
typedef ERL_NIF_TERM nif(ErlNifEnv *env, int argc, const ERL_NIF_TERM argv[]);

/* A function of the NIF library whose first argument is a handle, in the handle's gate. On a normal scheduler it may
 * return ELSEWHERE, since it takes long: then it begins again on a dirty one. It returns WRONG for an argument of a
 * wrong type. */
typedef ERL_NIF_TERM held(ErlNifEnv *env, struct resource *at, const ERL_NIF_TERM argv[]);

/* A call of `held` with its name in Erlang, and the function that makes it. If it only reads the handle, other reads
 * are in the gate at the same time. */
struct call {
    enum kind kind;
    bool reads;
    const char *name;
    nif *again;
    held *held;
};

#define DECLARE(name, arity, flags) nif nif_##name;
CALLS(DECLARE)

/* Begins the definition of a function that needs no gate. It may return ELSEWHERE and WRONG, like `held`. */
#define FUNCTION(name)                                                                                                 \
    static nif plain_##name;                                                                                           \
    ERL_NIF_TERM nif_##name(ErlNifEnv *env, int argc, const ERL_NIF_TERM argv[])                                       \
    {                                                                                                                  \
        static const struct call call = {KINDS, false, #name, nif_##name, NULL};                                       \
        return finished(&call, env, plain_##name(env, argc, argv), argc, argv);                                        \
    }                                                                                                                  \
    static ERL_NIF_TERM plain_##name(UNUSED ErlNifEnv *env, UNUSED int argc, UNUSED const ERL_NIF_TERM argv[])

/* Begins the definition of a function that may change its handle of a kind. */
#define CALL(kind, name)                                                                                               \
    static held held_##name;                                                                                           \
    ERL_NIF_TERM nif_##name(ErlNifEnv *env, int argc, const ERL_NIF_TERM argv[])                                       \
    {                                                                                                                  \
        static const struct call call = {kind, false, #name, nif_##name, held_##name};                                 \
        return with_gate(&call, env, argc, argv);                                                                      \
    }                                                                                                                  \
    static ERL_NIF_TERM held_##name(ErlNifEnv *env, struct resource *at, UNUSED const ERL_NIF_TERM argv[])

/* Begins the definition of a function that reads its handle of a kind, at once with others. */
#define READ(kind, name)                                                                                               \
    static ERL_NIF_TERM read_##name(ErlNifEnv *env, const struct resource *at, const ERL_NIF_TERM argv[]);             \
    static ERL_NIF_TERM held_##name(ErlNifEnv *env, struct resource *at, const ERL_NIF_TERM argv[])                    \
    {                                                                                                                  \
        return read_##name(env, at, argv);                                                                             \
    }                                                                                                                  \
    ERL_NIF_TERM nif_##name(ErlNifEnv *env, int argc, const ERL_NIF_TERM argv[])                                       \
    {                                                                                                                  \
        static const struct call call = {kind, true, #name, nif_##name, held_##name};                                  \
        return with_gate(&call, env, argc, argv);                                                                      \
    }                                                                                                                  \
    static ERL_NIF_TERM read_##name(ErlNifEnv *env, const struct resource *at, UNUSED const ERL_NIF_TERM argv[])

/* Returned in place of a term: the call begins again on a dirty scheduler. */
#define ELSEWHERE 0

/* Returned in place of a term: an argument has a wrong type. */
#define WRONG atoms.badarg

/* Bytes of an argument, or of a result, that a call handles in far less than a millisecond. */
#define FEW_BYTES 4096

/* Opens the resource types, or takes them over from another instance of the library. Returns false if it can't. */
bool open_types(ErlNifEnv *env);

/* Returns the result of a call to Erlang. For ELSEWHERE begins the call again on a dirty scheduler, and for WRONG
 * returns {badarg, Name, Arguments, Reads, IsLong}. */
ERL_NIF_TERM finished(const struct call *call, ErlNifEnv *env, ERL_NIF_TERM result, int argc,
                      const ERL_NIF_TERM argv[]);

/* Makes a call in the gate of the handle in its first argument. If the gate is taken, doesn't wait, and returns {wait,
 * Name, Arguments, Reads, IsLong}. */
ERL_NIF_TERM with_gate(const struct call *call, ErlNifEnv *env, int argc, const ERL_NIF_TERM argv[]);

/* Returns the resource of a handle of a kind, or NULL if the term isn't one. */
struct resource *get_resource(ErlNifEnv *env, ERL_NIF_TERM term, enum kind kind);

/* Claims a renewal or a portion for a call. Returns false if another call has it. */
bool claim(struct resource *part);

/* Ends a claim. */
void disclaim(struct resource *part);

/* Makes a resource whose handle holds nothing, or returns NULL without memory. */
struct resource *make_resource(enum kind kind);

/* Closes the orphans of a replica, and drops the sessions that have ended. The caller is in the replica's gate. */
void close_orphans(struct resource *replica);

/* Makes a part of a replica whose handle holds nothing, or returns NULL without memory. */
struct resource *make_part(enum kind kind, struct resource *replica);

/* Returns {ok, Handle} or a refusal, and releases the resource. */
ERL_NIF_TERM handle_result(ErlNifEnv *env, struct resource *made, uint32_t number);

#endif
