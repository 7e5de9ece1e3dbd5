/* Hints: versions that a node carries for replicas that are down. */
#include "handles.h"
#include "terms.h"

/* hints_new() -> {ok, Hints} */
FUNCTION(hints_new)
{
    struct resource *made = make_resource(HINTS);
    if (made == NULL)
        return refused(env, ANTIENTROPY_NO_MEMORY);
    return handle_result(env, made, antientropy_hints_new(&made->hints));
}

/* hints_restore(First) -> {ok, Hints} */
FUNCTION(hints_restore)
{
    uint64_t first;
    if (!get_u64(env, argv[0], &first))
        return WRONG;
    struct resource *made = make_resource(HINTS);
    if (made == NULL)
        return refused(env, ANTIENTROPY_NO_MEMORY);
    return handle_result(env, made, antientropy_hints_restore(&made->hints, first));
}

/* hints_close(Hints) -> ok */
CALL(HINTS, hints_close)
{
    antientropy_hints_free(&at->hints);
    return done(env, ANTIENTROPY_OK);
}

/* hint_keep(Hints, Owner, Key, Version) -> {ok, Number} */
CALL(HINTS, hint_keep)
{
    uint64_t owner, id;
    ErlNifBinary key;
    struct version version;
    if (!get_u64(env, argv[1], &owner) || !get_key(env, argv[2], &key))
        return WRONG;
    uint32_t number = get_version(env, argv[3], &version);
    if (number != ANTIENTROPY_OK)
        return refused(env, number);
    number = antientropy_hint_keep(&at->hints, owner, key.data, key.size, version.clock.pairs, version.clock.len,
                                   version.value.kind, version.value.bytes.data, version.value.bytes.size, &id);
    drop_clock(&version.clock);
    return number == ANTIENTROPY_OK ? ok(env, enif_make_uint64(env, id)) : refused(env, number);
}

/* hint_next(Hints, Owner, After) -> {ok, Number} */
CALL(HINTS, hint_next)
{
    uint64_t owner, after, id;
    if (!get_u64(env, argv[1], &owner) || !get_u64(env, argv[2], &after))
        return WRONG;
    uint32_t number = antientropy_hint_next(&at->hints, owner, after, &id);
    return number == ANTIENTROPY_OK ? ok(env, enif_make_uint64(env, id)) : refused(env, number);
}

/* hint(Hints, Number) -> {ok, Hint} */
CALL(HINTS, hint)
{
    uint64_t id, owner, key_len, clock_len;
    uint8_t key[ANTIENTROPY_KEY_MAX], kind;
    struct antientropy_pair pairs[ANTIENTROPY_CLOCK_MAX];
    struct room room;
    if (!get_u64(env, argv[1], &id))
        return WRONG;
    uint32_t number = antientropy_hint_owner(&at->hints, id, &owner);
    if (number == ANTIENTROPY_OK)
        number = antientropy_hint_key(&at->hints, id, key, sizeof key, &key_len);
    if (number == ANTIENTROPY_OK)
        number = antientropy_hint_clock(&at->hints, id, pairs, ANTIENTROPY_CLOCK_MAX, &clock_len);
    if (number != ANTIENTROPY_OK)
        return refused(env, number);
    open_room(&room);
    do
        number = antientropy_hint_value(&at->hints, id, &kind, room.at, room.len, &room.need);
    while (grows(&room, &number));
    if (number != ANTIENTROPY_OK)
        return room_result(env, &room, number);
    const ERL_NIF_TERM keys[] = {atoms.number, atoms.owner, atoms.key, atoms.clock, atoms.value};
    const ERL_NIF_TERM values[] = {enif_make_uint64(env, id), enif_make_uint64(env, owner),
                                   make_bytes(env, key, key_len), make_clock(env, pairs, clock_len),
                                   room_value(env, &room, kind)};
    return ok(env, make_map(env, 5, keys, values));
}

/* hint_confirm(Hints, Number, new | known) -> ok */
CALL(HINTS, hint_confirm)
{
    uint64_t id;
    bool known = enif_is_identical(argv[2], atoms.known);
    if (!get_u64(env, argv[1], &id) || (!known && !enif_is_identical(argv[2], atoms.new)))
        return WRONG;
    return done(env, antientropy_hint_confirm(&at->hints, id, known));
}

/* hints_renew(Hints) -> ok */
CALL(HINTS, hints_renew)
{
    return done(env, antientropy_hints_renew(&at->hints));
}

/* hints_count(Hints) -> {ok, Counts} */
CALL(HINTS, hints_count)
{
    struct antientropy_hint_counts counts;
    uint32_t number = antientropy_hints_count(&at->hints, &counts);
    if (number != ANTIENTROPY_OK)
        return refused(env, number);
    const ERL_NIF_TERM keys[] = {atoms.pending, atoms.delivered};
    const ERL_NIF_TERM values[] = {enif_make_uint64(env, counts.pending), enif_make_uint64(env, counts.delivered)};
    return ok(env, make_map(env, 2, keys, values));
}

/* hints_bytes(Hints) -> {ok, Bytes} */
CALL(HINTS, hints_bytes)
{
    uint64_t bytes;
    uint32_t number = antientropy_hints_bytes(&at->hints, &bytes);
    return number == ANTIENTROPY_OK ? ok(env, enif_make_uint64(env, bytes)) : refused(env, number);
}
