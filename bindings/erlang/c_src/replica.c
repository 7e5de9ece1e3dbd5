/* Replicas: new ones, their counts, trees and sessions, and loads of rows. */
#include "handles.h"
#include "terms.h"

/* new(Format, Bits, Range, Limit) -> {ok, Replica} */
FUNCTION(new)
{
    uint64_t format, bits, range, limit;
    if (!get_u64(env, argv[0], &format) || !get_u64(env, argv[1], &bits) || !get_u64(env, argv[2], &range)
        || !get_u64(env, argv[3], &limit))
        return WRONG;
    struct resource *made = make_resource(REPLICA);
    if (made == NULL)
        return refused(env, ANTIENTROPY_NO_MEMORY);
    return handle_result(env, made, antientropy_new(&made->replica, format, bits, range, limit));
}

/* new_seeded(Format, Bits, Range, Limit, First, Second) -> {ok, Replica} */
FUNCTION(new_seeded)
{
    uint64_t format, bits, range, limit, first, second;
    if (!get_u64(env, argv[0], &format) || !get_u64(env, argv[1], &bits) || !get_u64(env, argv[2], &range)
        || !get_u64(env, argv[3], &limit) || !get_u64(env, argv[4], &first) || !get_u64(env, argv[5], &second))
        return WRONG;
    struct resource *made = make_resource(REPLICA);
    if (made == NULL)
        return refused(env, ANTIENTROPY_NO_MEMORY);
    uint32_t number = antientropy_new_seeded(&made->replica, format, bits, range, limit, first, second);
    return handle_result(env, made, number);
}

/* close(Replica) -> ok */
CALL(REPLICA, close)
{
    antientropy_free(&at->replica);
    return done(env, ANTIENTROPY_OK);
}

/* renew(Replica, Limit) -> {ok, Replica} */
READ(REPLICA, renew)
{
    uint64_t limit;
    if (!get_u64(env, argv[1], &limit))
        return WRONG;
    struct resource *made = make_resource(REPLICA);
    if (made == NULL)
        return refused(env, ANTIENTROPY_NO_MEMORY);
    return handle_result(env, made, antientropy_renew(&at->replica, &made->replica, limit));
}

/* migrate(Replica) -> ok */
CALL(REPLICA, migrate)
{
    return done(env, antientropy_migrate(&at->replica));
}

/* about(Replica) -> {ok, About} */
READ(REPLICA, about)
{
    struct antientropy_about about;
    uint32_t number = antientropy_about(&at->replica, &about);
    if (number != ANTIENTROPY_OK)
        return refused(env, number);
    const ERL_NIF_TERM keys[] = {atoms.format, atoms.bits, atoms.range, atoms.entries};
    const ERL_NIF_TERM values[] = {enif_make_uint64(env, about.format), enif_make_uint64(env, about.bits),
                                   enif_make_uint64(env, about.range), enif_make_uint64(env, about.entries)};
    return ok(env, make_map(env, 4, keys, values));
}

/* count(Replica) -> {ok, Counts} */
READ(REPLICA, count)
{
    struct antientropy_counts counts;
    uint32_t number = antientropy_count(&at->replica, &counts);
    if (number != ANTIENTROPY_OK)
        return refused(env, number);
    const ERL_NIF_TERM keys[] = {atoms.entries,       atoms.limit, atoms.dirty, atoms.sessions,
                                 atoms.open_sessions, atoms.first, atoms.front};
    const ERL_NIF_TERM values[] = {enif_make_uint64(env, counts.entries), enif_make_uint64(env, counts.limit),
                                   enif_make_uint64(env, counts.dirty), enif_make_uint64(env, counts.sessions),
                                   enif_make_uint64(env, counts.open_sessions), enif_make_uint64(env, counts.first),
                                   enif_make_uint64(env, counts.front)};
    return ok(env, make_map(env, 7, keys, values));
}

/* bytes(Replica) -> {ok, Bytes} */
READ(REPLICA, bytes)
{
    struct antientropy_bytes bytes;
    uint32_t number = antientropy_bytes(&at->replica, &bytes);
    if (number != ANTIENTROPY_OK)
        return refused(env, number);
    const ERL_NIF_TERM keys[] = {atoms.rows, atoms.journal, atoms.sessions};
    const ERL_NIF_TERM values[] = {enif_make_uint64(env, bytes.rows), enif_make_uint64(env, bytes.journal),
                                   enif_make_uint64(env, bytes.sessions)};
    return ok(env, make_map(env, 3, keys, values));
}

/* rehash_some(Replica, Most) -> {ok, Left} */
CALL(REPLICA, rehash_some)
{
    uint64_t most, left;
    if (!get_u64(env, argv[1], &most))
        return WRONG;
    uint32_t number = antientropy_rehash_some(&at->replica, most, &left);
    return number == ANTIENTROPY_OK ? ok(env, enif_make_uint64(env, left)) : refused(env, number);
}

/* drop_sessions(Replica) -> ok */
CALL(REPLICA, drop_sessions)
{
    close_orphans(at);
    return done(env, antientropy_drop_sessions(&at->replica));
}

/* Returns {ok, Loaded} or a refusal, with the offset of a broken row. */
static ERL_NIF_TERM loaded_result(ErlNifEnv *env, uint32_t number, const struct antientropy_loaded *loaded)
{
    if (number == ANTIENTROPY_ROW_BROKEN) {
        ERL_NIF_TERM broken = enif_make_tuple2(env, name_of(number), enif_make_uint64(env, loaded->offset));
        return enif_make_tuple2(env, atoms.error, broken);
    }
    if (number != ANTIENTROPY_OK)
        return refused(env, number);
    const ERL_NIF_TERM keys[] = {atoms.new, atoms.known};
    const ERL_NIF_TERM values[] = {enif_make_uint64(env, loaded->taken), enif_make_uint64(env, loaded->known)};
    return ok(env, make_map(env, 2, keys, values));
}

/* load_rows(Replica, Rows) -> {ok, Loaded} | {error, {row_broken, Offset}} | {renew, Replica, Result} */
CALL(REPLICA, load_rows)
{
    ErlNifBinary rows;
    struct antientropy_loaded loaded;
    uint32_t number = get_bytes(env, argv[1], &rows);
    if (number != ANTIENTROPY_OK)
        return refused(env, number);
    number = antientropy_load(&at->replica, rows.data, rows.size, &loaded);
    return after_change(env, at, loaded_result(env, number, &loaded));
}

/* load_format(Replica, Format, Rows) -> {ok, Loaded} | {error, {row_broken, Offset}} | {renew, Replica, Result} */
CALL(REPLICA, load_format)
{
    uint64_t format;
    ErlNifBinary rows;
    struct antientropy_loaded loaded;
    if (!get_u64(env, argv[1], &format))
        return WRONG;
    uint32_t number = get_bytes(env, argv[2], &rows);
    if (number != ANTIENTROPY_OK)
        return refused(env, number);
    number = antientropy_load_format(&at->replica, format, rows.data, rows.size, &loaded);
    return after_change(env, at, loaded_result(env, number, &loaded));
}
