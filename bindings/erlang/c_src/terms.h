/* Terms of Erlang, to and from the values of C. */
#ifndef TERMS_H
#define TERMS_H

#include <erl_nif.h>
#include <stdint.h>

#include "antientropy.h"
#include "handles.h"

/* The atoms: the field of `atoms`, and the text. */
#define ATOMS(X)                                                                                                       \
    X(accepted, "accepted")                                                                                            \
    X(after, "after")                                                                                                  \
    X(apart, "apart")                                                                                                  \
    X(asks, "asks")                                                                                                    \
    X(bad, "bad")                                                                                                      \
    X(badarg, "badarg")                                                                                                \
    X(before, "before")                                                                                                \
    X(bits, "bits")                                                                                                    \
    X(bytes, "bytes")                                                                                                  \
    X(bytes_in_flight, "bytes_in_flight")                                                                              \
    X(cause, "cause")                                                                                                  \
    X(clock, "clock")                                                                                                  \
    X(closed, "closed")                                                                                                \
    X(copy, "copy")                                                                                                    \
    X(counter, "counter")                                                                                              \
    X(delivered, "delivered")                                                                                          \
    X(dirty, "dirty")                                                                                                  \
    X(entries, "entries")                                                                                              \
    X(equal, "equal")                                                                                                  \
    X(error, "error")                                                                                                  \
    X(failed, "failed")                                                                                                \
    X(finished, "finished")                                                                                            \
    X(first, "first")                                                                                                  \
    X(format, "format")                                                                                                \
    X(free, "free")                                                                                                    \
    X(from, "from")                                                                                                    \
    X(front, "front")                                                                                                  \
    X(gone, "gone")                                                                                                    \
    X(hint, "hint")                                                                                                    \
    X(hold, "hold")                                                                                                    \
    X(in_flight, "in_flight")                                                                                          \
    X(journal, "journal")                                                                                              \
    X(key, "key")                                                                                                      \
    X(known, "known")                                                                                                  \
    X(late, "late")                                                                                                    \
    X(leaf, "leaf")                                                                                                    \
    X(leaves, "leaves")                                                                                                \
    X(left, "left")                                                                                                    \
    X(lent, "lent")                                                                                                    \
    X(limit, "limit")                                                                                                  \
    X(lost, "lost")                                                                                                    \
    X(new, "new")                                                                                                      \
    X(next, "next")                                                                                                    \
    X(no, "false")                                                                                                     \
    X(none, "none")                                                                                                    \
    X(number, "number")                                                                                                \
    X(ok, "ok")                                                                                                        \
    X(open_sessions, "open_sessions")                                                                                  \
    X(owner, "owner")                                                                                                  \
    X(partner, "partner")                                                                                              \
    X(pending, "pending")                                                                                              \
    X(plain, "plain")                                                                                                  \
    X(portion, "portion")                                                                                              \
    X(put, "put")                                                                                                      \
    X(range, "range")                                                                                                  \
    X(refused, "refused")                                                                                              \
    X(renew, "renew")                                                                                                  \
    X(report, "report")                                                                                                \
    X(root, "root")                                                                                                    \
    X(rows, "rows")                                                                                                    \
    X(sessions, "sessions")                                                                                            \
    X(source, "source")                                                                                                \
    X(stopped, "stopped")                                                                                              \
    X(taken, "taken")                                                                                                  \
    X(target, "target")                                                                                                \
    X(tombstone, "tombstone")                                                                                          \
    X(too_many_bad, "too_many_bad")                                                                                    \
    X(too_many_lost, "too_many_lost")                                                                                  \
    X(undefined, "undefined")                                                                                          \
    X(value, "value")                                                                                                  \
    X(verdict, "verdict")                                                                                              \
    X(wait, "wait")                                                                                                    \
    X(waiting, "waiting")                                                                                              \
    X(yes, "true")

#define ATOM_FIELD(field, text) ERL_NIF_TERM field;
extern struct atoms {
    ATOMS(ATOM_FIELD)
} atoms;

/* Numbers that the library doesn't have: an argument of a wrong type, an argument that takes long to read on a normal
 * scheduler, and a moment that isn't whole yet. */
#define BADARG UINT32_MAX
#define LONG_ARGUMENT (UINT32_MAX - 1)
#define MORE (UINT32_MAX - 2)

/* Maximum number of a clock's pairs that a call gets. If there are more, one has a bad node, or the same node as
 * another. */
#define MOST_PAIRS (ANTIENTROPY_NODE_MAX + 1)

/* A clock that a call takes. If the pairs don't fit in `few`, drop_clock frees them. */
struct clock {
    struct antientropy_pair *pairs;
    size_t len;
    struct antientropy_pair few[ANTIENTROPY_CLOCK_MAX];
};

/* A value or a tombstone that a call takes. */
struct value {
    ErlNifBinary bytes;
    uint8_t kind;
};

/* A version that a call takes: drop_clock frees its clock. */
struct version {
    struct clock clock;
    struct value value;
};

/* Buffer for the bytes that a call returns: `few`, or `many` if they don't fit. */
struct room {
    uint8_t *at;
    size_t len;
    uint64_t need;
    ErlNifBinary many;
    uint8_t few[FEW_BYTES];
};

/* Makes the atoms, also of the refusals, from their names in the library. */
void make_atoms(ErlNifEnv *env);

/* ---- results */

/* Returns the atom of a number that a call returned, or `undefined`. */
ERL_NIF_TERM name_of(uint32_t number);

/* Returns the atom of a number that counts from 0, or the number itself if only a newer library has it. */
ERL_NIF_TERM one_of(ErlNifEnv *env, size_t len, const ERL_NIF_TERM of[], uint64_t number);

/* Returns {ok, Term}. */
ERL_NIF_TERM ok(ErlNifEnv *env, ERL_NIF_TERM term);

/* Returns {error, Name}, for BADARG WRONG, or for LONG_ARGUMENT ELSEWHERE. */
ERL_NIF_TERM refused(ErlNifEnv *env, uint32_t number);

/* Returns `ok` or a refusal. */
ERL_NIF_TERM done(ErlNifEnv *env, uint32_t number);

/* Returns a map of atoms to terms. */
ERL_NIF_TERM make_map(ErlNifEnv *env, size_t len, const ERL_NIF_TERM keys[], const ERL_NIF_TERM values[]);

/* Returns a binary with the bytes. */
ERL_NIF_TERM make_bytes(ErlNifEnv *env, const uint8_t *bytes, size_t len);

ERL_NIF_TERM make_clock(ErlNifEnv *env, const struct antientropy_pair *pairs, size_t len);
ERL_NIF_TERM make_version(ErlNifEnv *env, ERL_NIF_TERM clock, ERL_NIF_TERM value);

/* ---- arguments: each function returns false, or BADARG, if the term isn't of the type */

bool get_u32(ErlNifEnv *env, ERL_NIF_TERM term, uint32_t *number);
bool get_u64(ErlNifEnv *env, ERL_NIF_TERM term, uint64_t *number);
bool get_bool(ERL_NIF_TERM term, bool *flag);

/* Reads a key, but at most one byte more than the maximum. */
bool get_key(ErlNifEnv *env, ERL_NIF_TERM term, ErlNifBinary *key);

/* Reads iodata. Returns OK, BADARG, or LONG_ARGUMENT for over FEW_BYTES. */
uint32_t get_bytes(ErlNifEnv *env, ERL_NIF_TERM term, ErlNifBinary *bytes);

/* Reads iodata, but at most one byte more than the maximum of format 2, or the atom `tombstone`. Returns OK, BADARG or
 * LONG_ARGUMENT. */
uint32_t get_value(ErlNifEnv *env, ERL_NIF_TERM term, struct value *value);

/* Reads a map of nodes to counters, or a list of pairs: at most MOST_PAIRS. Returns OK, BADARG, LONG_ARGUMENT or
 * NO_MEMORY: only after OK is the clock to be dropped. */
uint32_t get_clock(ErlNifEnv *env, ERL_NIF_TERM term, struct clock *clock);

/* Reads a map that has a clock and a value. Returns what get_clock returns. */
uint32_t get_version(ErlNifEnv *env, ERL_NIF_TERM term, struct version *version);

void drop_clock(struct clock *clock);

/* ---- bytes that calls return */

/* Makes the buffer of a first call. */
void open_room(struct room *room);

/* Returns true if a call needs a larger buffer: repeat the call. Without memory `number` becomes NO_MEMORY. */
bool grows(struct room *room, uint32_t *number);

/* Frees the part of a buffer that a call hasn't used. Without memory `number` becomes NO_MEMORY. */
void trim_room(struct room *room, uint32_t *number);

/* Returns the bytes as a binary, and consumes the buffer. */
ERL_NIF_TERM room_bytes(ErlNifEnv *env, struct room *room);

/* Releases a buffer. */
void drop_room(struct room *room);

/* Returns {ok, Bytes} or a refusal, and consumes the buffer. */
ERL_NIF_TERM room_result(ErlNifEnv *env, struct room *room, uint32_t number);

/* Returns the value in a buffer: the bytes, or for a tombstone the atom. Consumes the buffer. */
ERL_NIF_TERM room_value(ErlNifEnv *env, struct room *room, uint64_t kind);

#endif
