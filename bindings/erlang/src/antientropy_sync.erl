%% @doc A whole sync with a partner, which {@link antientropy:sync/4} starts.
-module(antientropy_sync).

-export([sync/5]).

-export_type([reach/0, answer/0, synced/0]).

-type answer() :: {ok, iodata()} | {error, term()}.
%% The answer to an ask, as {@link antientropy_snapshot:serve/3} returns it. An error is a missing answer.
-type reach() :: fun((Asks :: [binary()]) -> [answer()]).
%% A function that brings asks to the partner, and returns the answers, in any order. Some may be missing.
-type synced() :: #{
    report := antientropy_exchange:report(),
    accepted := non_neg_integer(),
    known := non_neg_integer(),
    asks := non_neg_integer(),
    bad := non_neg_integer(),
    lost := non_neg_integer(),
    left := [Leaf :: non_neg_integer()]
}.
%% The final report, the numbers of new and known versions, asks, bad answers and lost asks, and the leaves that were
%% left because a key in them is crowded.

%% @private
%% @doc Accepts the versions of an offer that are missing in a replica.
-spec sync(antientropy:replica(), Partner :: non_neg_integer(), Offer :: iodata(), reach(), Bounds) ->
    {ok, synced()} | antientropy:refused() when
    Bounds :: antientropy_exchange:bounds().
sync(Replica, Partner, Offer, Reach, Bounds) when is_function(Reach, 1) ->
    case antientropy:exchange(Replica, Partner, Offer, Bounds) of
        {ok, Exchange} ->
            try
                run(Exchange, Reach)
            after
                antientropy_exchange:close(Exchange)
            end;
        Refused ->
            Refused
    end;
sync(_, _, _, _, _) ->
    error(badarg).

run(Exchange, Reach) ->
    case antientropy_exchange:asks(Exchange) of
        {ok, [_ | _] = Asks} ->
            Answers = [Answer || {ok, Answer} <- Reach(Asks)],
            lists:foreach(fun(Answer) -> antientropy_exchange:take(Exchange, Answer) end, Answers),
            lists:foreach(fun(Ask) -> antientropy_exchange:lose(Exchange, Ask) end, Asks),
            run(Exchange, Reach);
        {ok, []} ->
            result(antientropy_exchange:progress(Exchange), antientropy_exchange:left(Exchange));
        Refused ->
            Refused
    end.

result({ok, #{report := stopped, cause := Cause}}, _) -> {error, Cause};
result({ok, #{report := failed}}, _) -> {error, not_canonical};
result({ok, Progress}, {ok, Left}) ->
    Counts = maps:with([report, accepted, known, asks, bad, lost], Progress),
    {ok, Counts#{left => Left}};
result(_, Refused) -> Refused.
