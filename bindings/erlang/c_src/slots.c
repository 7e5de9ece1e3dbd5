/* Slots for background work. */
#include "handles.h"
#include "terms.h"

/* slots_new(Floor, Ceiling, Threshold) -> {ok, Slots} */
FUNCTION(slots_new)
{
    uint32_t floor, ceiling, threshold;
    if (!get_u32(env, argv[0], &floor) || !get_u32(env, argv[1], &ceiling) || !get_u32(env, argv[2], &threshold))
        return WRONG;
    struct resource *made = make_resource(SLOTS);
    if (made == NULL)
        return refused(env, ANTIENTROPY_NO_MEMORY);
    return handle_result(env, made, antientropy_slots_new(&made->slots, floor, ceiling, threshold));
}

/* slots_close(Slots) -> ok */
CALL(SLOTS, slots_close)
{
    antientropy_slots_free(&at->slots);
    return done(env, ANTIENTROPY_OK);
}

/* slot_lend(Slots) -> ok */
CALL(SLOTS, slot_lend)
{
    return done(env, antientropy_slot_lend(&at->slots));
}

/* slot_give_back(Slots) -> ok */
CALL(SLOTS, slot_give_back)
{
    return done(env, antientropy_slot_give_back(&at->slots));
}

/* slots_sample(Slots, Moment, Micros) -> ok */
CALL(SLOTS, slots_sample)
{
    uint64_t moment;
    uint32_t micros;
    if (!get_u64(env, argv[1], &moment) || !get_u32(env, argv[2], &micros))
        return WRONG;
    return done(env, antientropy_slots_sample(&at->slots, moment, micros));
}

/* slots_adjust(Slots, Now) -> {ok, Micros | none} */
CALL(SLOTS, slots_adjust)
{
    uint64_t now;
    struct antientropy_percentile p99;
    if (!get_u64(env, argv[1], &now))
        return WRONG;
    uint32_t number = antientropy_slots_adjust(&at->slots, now, &p99);
    if (number != ANTIENTROPY_OK)
        return refused(env, number);
    return ok(env, p99.found == 1 ? enif_make_uint64(env, p99.micros) : atoms.none);
}

/* slots_set_target(Slots, Target) -> ok */
CALL(SLOTS, slots_set_target)
{
    uint32_t target;
    if (!get_u32(env, argv[1], &target))
        return WRONG;
    return done(env, antientropy_slots_set_target(&at->slots, target));
}

/* slots_count(Slots) -> {ok, Counts} */
CALL(SLOTS, slots_count)
{
    struct antientropy_slot_counts counts;
    uint32_t number = antientropy_slots_count(&at->slots, &counts);
    if (number != ANTIENTROPY_OK)
        return refused(env, number);
    const ERL_NIF_TERM keys[] = {atoms.target, atoms.lent, atoms.free};
    const ERL_NIF_TERM values[] = {enif_make_uint64(env, counts.target), enif_make_uint64(env, counts.lent),
                                   enif_make_uint64(env, counts.free)};
    return ok(env, make_map(env, 3, keys, values));
}
