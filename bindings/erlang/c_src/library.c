/* Calls of the library that need no handle. */
#include "handles.h"
#include "terms.h"

/* version() -> Number */
FUNCTION(version)
{
    return enif_make_uint(env, antientropy_version());
}

/* name(Number) -> Name | undefined */
FUNCTION(name)
{
    uint32_t number;
    if (!get_u32(env, argv[0], &number))
        return WRONG;
    return name_of(number);
}

/* place(Format, Bits, Key) -> {ok, Spot} */
FUNCTION(place)
{
    uint64_t format, bits;
    ErlNifBinary key;
    struct antientropy_spot spot;
    if (!get_u64(env, argv[0], &format) || !get_u64(env, argv[1], &bits) || !get_key(env, argv[2], &key))
        return WRONG;
    uint32_t number = antientropy_place(format, bits, key.data, key.size, &spot);
    if (number != ANTIENTROPY_OK)
        return refused(env, number);
    const ERL_NIF_TERM keys[] = {atoms.range, atoms.leaf};
    const ERL_NIF_TERM values[] = {enif_make_uint64(env, spot.range), enif_make_uint64(env, spot.leaf)};
    return ok(env, make_map(env, 2, keys, values));
}

/* Reads two clocks. Returns what get_clock returns: only after OK are both to be dropped. */
static uint32_t get_clocks(ErlNifEnv *env, const ERL_NIF_TERM argv[], struct clock *first, struct clock *second)
{
    uint32_t number = get_clock(env, argv[0], first);
    if (number != ANTIENTROPY_OK)
        return number;
    number = get_clock(env, argv[1], second);
    if (number != ANTIENTROPY_OK)
        drop_clock(first);
    return number;
}

static ERL_NIF_TERM order_atom(ErlNifEnv *env, uint64_t order)
{
    const ERL_NIF_TERM orders[] = {
        [ANTIENTROPY_BEFORE] = atoms.before,
        [ANTIENTROPY_AFTER] = atoms.after,
        [ANTIENTROPY_EQUAL] = atoms.equal,
        [ANTIENTROPY_APART] = atoms.apart,
    };
    return one_of(env, sizeof orders / sizeof *orders, orders, order);
}

/* compare(First, Second) -> {ok, before | 'after' | equal | apart} */
FUNCTION(compare)
{
    struct clock first, second;
    uint64_t order;
    uint32_t number = get_clocks(env, argv, &first, &second);
    if (number != ANTIENTROPY_OK)
        return refused(env, number);
    number = antientropy_compare(first.pairs, first.len, second.pairs, second.len, &order);
    drop_clock(&first);
    drop_clock(&second);
    return number == ANTIENTROPY_OK ? ok(env, order_atom(env, order)) : refused(env, number);
}

/* merge(First, Second) -> {ok, Clock} */
FUNCTION(merge)
{
    struct clock first, second;
    struct antientropy_pair merged[ANTIENTROPY_CLOCK_MAX];
    uint64_t len;
    uint32_t number = get_clocks(env, argv, &first, &second);
    if (number != ANTIENTROPY_OK)
        return refused(env, number);
    number = antientropy_merge(first.pairs, first.len, second.pairs, second.len, merged, ANTIENTROPY_CLOCK_MAX, &len);
    drop_clock(&first);
    drop_clock(&second);
    return number == ANTIENTROPY_OK ? ok(env, make_clock(env, merged, len)) : refused(env, number);
}

/* read_offer(Offer) -> {ok, Parts} */
FUNCTION(read_offer)
{
    ErlNifBinary offer;
    struct antientropy_offer_parts parts;
    uint32_t number = get_bytes(env, argv[0], &offer);
    if (number == ANTIENTROPY_OK)
        number = antientropy_read_offer(offer.data, offer.size, &parts);
    if (number != ANTIENTROPY_OK)
        return refused(env, number);
    const ERL_NIF_TERM keys[] = {atoms.number, atoms.format, atoms.range, atoms.root};
    const ERL_NIF_TERM values[] = {enif_make_uint64(env, parts.number), enif_make_uint64(env, parts.format),
                                   enif_make_uint64(env, parts.range), make_bytes(env, parts.root, sizeof parts.root)};
    return ok(env, make_map(env, 4, keys, values));
}
