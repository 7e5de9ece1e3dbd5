/* Renewals of a replica in its place. They are made in steps, each a call of its own, so that other calls pass the
 * replica's gate between them. */
#include <string.h>

#include "handles.h"
#include "keeper.h"
#include "leftovers.h"
#include "moments.h"
#include "terms.h"

/* Entries that are accepted in far less than a millisecond. */
enum { FEW_ENTRIES = 64 };

/* renewal(Replica) -> {ok, Renewal} */
CALL(REPLICA, renewal)
{
    struct resource *made = make_part(RENEWAL, at);
    return made == NULL ? refused(env, ANTIENTROPY_NO_MEMORY) : handle_result(env, made, ANTIENTROPY_OK);
}

/* A renewal that is to begin with the rows of the moment. */
struct beginning {
    uint64_t limit;
    struct antientropy_renewal *renewal;
};

static uint32_t begin(struct resource *replica, void *of)
{
    struct beginning *beginning = of;
    return antientropy_renewal_begin(&replica->replica, beginning->limit, beginning->renewal);
}

/* renewal_of_moment(Renewal, Limit, From, Most) -> ok | {portion, Portion} */
STEP(RENEWAL, renewal_of_moment, 2)
{
    struct beginning beginning = {.renewal = &at->renewal};
    struct step step = {.from = argv[2]};
    if (!get_u64(env, argv[1], &beginning.limit) || !get_u64(env, argv[3], &step.most))
        return WRONG;
    if (!claim(at))
        return WRONG;
    uint32_t number = call_or_step(env, at->of, &step, begin, &beginning);
    disclaim(at);
    return number == ANTIENTROPY_OK ? atoms.ok : step_result(env, &step, number);
}

/* Makes the new replica, outside the gate. renewal_build(Renewal) -> ok */
FUNCTION(renewal_build)
{
    struct resource *at = get_resource(env, argv[0], RENEWAL);
    if (at == NULL || !claim(at))
        return WRONG;
    uint32_t number = antientropy_renewal_build(&at->renewal);
    disclaim(at);
    return done(env, number);
}

/* renewal_catch_up(Renewal, Most) -> {ok, Left} */
CALL(RENEWAL, renewal_catch_up)
{
    uint64_t most, left;
    if (!get_u64(env, argv[1], &most))
        return WRONG;
    if (most > FEW_ENTRIES && on_normal_scheduler())
        return ELSEWHERE;
    if (!claim(at))
        return WRONG;
    uint32_t number = antientropy_renewal_catch_up(&at->renewal, &at->of->replica, most, &left);
    disclaim(at);
    return number == ANTIENTROPY_OK ? ok(env, enif_make_uint64(env, left)) : refused(env, number);
}

/* Accepts the entries that are left, and puts the new replica in the place of the old one.
 * renewal_finish(Renewal) -> ok */
CALL(RENEWAL, renewal_finish)
{
    uint64_t left;
    if (!claim(at))
        return WRONG;
    uint32_t number = antientropy_renewal_catch_up(&at->renewal, &at->of->replica, 0, &left);
    bool is_long = number == ANTIENTROPY_OK && left > FEW_ENTRIES && on_normal_scheduler();
    if (!is_long)
        number = antientropy_renewal_finish(&at->renewal, &at->of->replica);
    disclaim(at);
    if (is_long)
        return ELSEWHERE;
    if (number == ANTIENTROPY_OK) {
        note_renewed(at->of);
        end_kept(at);
    }
    return done(env, number);
}

/* Frees in the worker: the caller may be a normal scheduler, and other calls wait. renewal_close(Renewal) -> ok */
CALL(RENEWAL, renewal_close)
{
    if (!claim(at))
        return WRONG;
    struct leftovers leftovers = {.renewal = at->renewal};
    memset(&at->renewal, 0, sizeof at->renewal);
    disclaim(at);
    free_later(env, &leftovers);
    if (at->is_kept)
        note_renewed(at->of);
    end_kept(at);
    return atoms.ok;
}
