%% @doc Requests of clients of this node, measured and counted by outcome.
-module(cluster_requests).

-export([put/4, get/2, refuse/2, counts/0]).

-type counts() :: #{refused | perhaps := #{Name :: binary() => pos_integer()}}.

%% @doc Puts as {@link cluster_coordinator:put/4} does. If a process of this node ends, the put may have happened.
-spec put(Key :: binary(), antientropy:value(), Context :: antientropy:clock_like(), W :: pos_integer()) ->
    {ok, cluster_coordinator:stored()} | cluster_refusal:refused().
put(Key, Value, Context, W) ->
    measured(put, fun() -> cluster_coordinator:put(Key, Value, Context, W) end, {perhaps, down}).

%% @doc Gets as {@link cluster_coordinator:get/2} does.
-spec get(Key :: binary(), R :: pos_integer()) -> {ok, cluster_coordinator:found()} | cluster_refusal:refused().
get(Key, R) ->
    measured(get, fun() -> cluster_coordinator:get(Key, R) end, {refused, down}).

%% @doc Refuses a request.
-spec refuse(put | get, Name :: atom()) -> cluster_refusal:refused().
refuse(Kind, Name) ->
    Refused = {refused, Name},
    ok = count(Kind, Refused),
    Refused.

measured(Kind, Request, IfEnded) ->
    Begun = erlang:monotonic_time(microsecond),
    Outcome = outcome(Request, IfEnded),
    ok = cluster_metrics:observe(requests, [{kind, Kind}], erlang:monotonic_time(microsecond) - Begun),
    ok = count(Kind, Outcome),
    Outcome.

outcome(Request, IfEnded) ->
    try
        Request()
    catch
        exit:_ -> IfEnded
    end.

count(Kind, {ok, _}) -> count(Kind, done, none);
count(Kind, Refused) -> count(Kind, element(1, Refused), element(2, Refused)).

count(Kind, Outcome, Cause) ->
    cluster_metrics:count(requests, [{kind, Kind}, {outcome, Outcome}, {cause, Cause}]).

%% @doc Returns the counts by name: of requests that weren't done, and of puts that may have happened.
-spec counts() -> counts().
counts() ->
    maps:from_list([{Outcome, of_outcome(Outcome)} || Outcome <- [refused, perhaps]]).

of_outcome(Outcome) ->
    Add = fun({Labels, Count}, Sums) ->
        {cause, Cause} = lists:keyfind(cause, 1, Labels),
        maps:update_with(cluster_refusal:text(Cause), fun(Sum) -> Sum + Count end, Count, Sums)
    end,
    Counts = cluster_metrics:values(requests),
    lists:foldl(Add, #{}, [Each || {Labels, _} = Each <- Counts, lists:member({outcome, Outcome}, Labels)]).
