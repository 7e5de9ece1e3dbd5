/* Exchanges of a replica. Even a call that only reads the replica is alone in its gate, since it may change the
 * exchange. */
#include "handles.h"
#include "terms.h"

/* exchange_asks(Exchange) -> {ok, [Ask]} */
CALL(EXCHANGE, exchange_asks)
{
    uint8_t ask[ANTIENTROPY_ASK_ROOM];
    size_t room = at->is_plain ? ANTIENTROPY_ASK_LEN : sizeof ask;
    uint64_t len;
    ERL_NIF_TERM asks = enif_make_list(env, 0);
    for (;;) {
        uint32_t number = antientropy_exchange_next(&at->exchange, &at->of->replica, ask, room, &len);
        if (number != ANTIENTROPY_OK)
            return refused(env, number);
        if (len == 0)
            break;
        asks = enif_make_list_cell(env, make_bytes(env, ask, len), asks);
    }
    enif_make_reverse_list(env, asks, &asks);
    return ok(env, asks);
}

/* Returns the atom of a cause, or `none`. */
static ERL_NIF_TERM cause_atom(uint64_t cause)
{
    return cause == ANTIENTROPY_OK ? atoms.none : name_of((uint32_t)cause);
}

static ERL_NIF_TERM verdict_atom(ErlNifEnv *env, uint64_t verdict)
{
    const ERL_NIF_TERM verdicts[] = {
        [ANTIENTROPY_VERDICT_TAKEN] = atoms.taken,     [ANTIENTROPY_VERDICT_LEFT] = atoms.left,
        [ANTIENTROPY_VERDICT_BAD] = atoms.bad,         [ANTIENTROPY_VERDICT_LATE] = atoms.late,
        [ANTIENTROPY_VERDICT_REFUSED] = atoms.refused, [ANTIENTROPY_VERDICT_FAILED] = atoms.failed,
    };
    return one_of(env, sizeof verdicts / sizeof *verdicts, verdicts, verdict);
}

/* exchange_take(Exchange, Answer) -> {ok, Verdict} */
CALL(EXCHANGE, exchange_take)
{
    ErlNifBinary answer;
    struct antientropy_verdict verdict;
    uint32_t number = get_bytes(env, argv[1], &answer);
    if (number == ANTIENTROPY_OK)
        number = antientropy_exchange_take(&at->exchange, &at->of->replica, answer.data, answer.size, &verdict);
    if (number != ANTIENTROPY_OK)
        return refused(env, number);
    const ERL_NIF_TERM keys[] = {atoms.verdict, atoms.cause, atoms.accepted, atoms.known};
    const ERL_NIF_TERM values[] = {verdict_atom(env, verdict.verdict), cause_atom(verdict.cause),
                                   enif_make_uint64(env, verdict.accepted), enif_make_uint64(env, verdict.known)};
    return ok(env, make_map(env, 4, keys, values));
}

/* exchange_lose(Exchange, Ask) -> ok */
CALL(EXCHANGE, exchange_lose)
{
    ErlNifBinary ask;
    uint32_t number = get_bytes(env, argv[1], &ask);
    if (number == ANTIENTROPY_OK)
        number = antientropy_exchange_lose(&at->exchange, ask.data, ask.size);
    return done(env, number);
}

/* exchange_go_on(Exchange) -> ok */
CALL(EXCHANGE, exchange_go_on)
{
    return done(env, antientropy_exchange_go_on(&at->exchange));
}

static ERL_NIF_TERM report_atom(ErlNifEnv *env, uint64_t report)
{
    const ERL_NIF_TERM reports[] = {
        [ANTIENTROPY_REPORT_FINISHED] = atoms.finished,
        [ANTIENTROPY_REPORT_WAITING] = atoms.waiting,
        [ANTIENTROPY_REPORT_LEFT] = atoms.left,
        [ANTIENTROPY_REPORT_STOPPED] = atoms.stopped,
        [ANTIENTROPY_REPORT_TOO_MANY_BAD] = atoms.too_many_bad,
        [ANTIENTROPY_REPORT_TOO_MANY_LOST] = atoms.too_many_lost,
        [ANTIENTROPY_REPORT_FAILED] = atoms.failed,
        [ANTIENTROPY_REPORT_CLOSED] = atoms.closed,
        [ANTIENTROPY_REPORT_GONE] = atoms.gone,
    };
    return one_of(env, sizeof reports / sizeof *reports, reports, report);
}

/* exchange_progress(Exchange) -> {ok, Progress} */
CALL(EXCHANGE, exchange_progress)
{
    struct antientropy_progress progress;
    uint32_t number = antientropy_exchange_report(&at->exchange, &at->of->replica, &progress);
    if (number != ANTIENTROPY_OK)
        return refused(env, number);
    const ERL_NIF_TERM keys[] = {atoms.report, atoms.cause, atoms.asks,     atoms.in_flight, atoms.bytes_in_flight,
                                 atoms.bad,    atoms.lost,  atoms.accepted, atoms.known,  atoms.leaves};
    const ERL_NIF_TERM values[] = {report_atom(env, progress.report),
                                   cause_atom(progress.cause),
                                   enif_make_uint64(env, progress.asks),
                                   enif_make_uint64(env, progress.in_flight),
                                   enif_make_uint64(env, progress.bytes_in_flight),
                                   enif_make_uint64(env, progress.bad),
                                   enif_make_uint64(env, progress.lost),
                                   enif_make_uint64(env, progress.accepted),
                                   enif_make_uint64(env, progress.known),
                                   enif_make_uint64(env, progress.leaves)};
    return ok(env, make_map(env, 10, keys, values));
}

/* exchange_left(Exchange) -> {ok, [Leaf]} */
CALL(EXCHANGE, exchange_left)
{
    struct antientropy_node node;
    uint32_t number;
    ERL_NIF_TERM leaves = enif_make_list(env, 0);
    for (uint64_t place = 0;; place++) {
        number = antientropy_exchange_left(&at->exchange, &at->of->replica, place, &node);
        if (number != ANTIENTROPY_OK)
            break;
        leaves = enif_make_list_cell(env, enif_make_uint64(env, node.index), leaves);
    }
    if (number != ANTIENTROPY_NO_VERSION)
        return refused(env, number);
    enif_make_reverse_list(env, leaves, &leaves);
    return ok(env, leaves);
}

/* Closes an exchange, and drops its session, with the others that have ended.
 * exchange_close(Exchange) -> ok | {renew, Replica, ok} */
CALL(EXCHANGE, exchange_close)
{
    if (antientropy_exchange_close(&at->exchange, &at->of->replica) == ANTIENTROPY_OK)
        antientropy_drop_sessions(&at->of->replica);
    antientropy_exchange_free(&at->exchange);
    return after_change(env, at->of, atoms.ok);
}
