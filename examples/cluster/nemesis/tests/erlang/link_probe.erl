%% @doc Calls the nemesis' `cluster_link' in one node, and prints the outcome, and the number of times that it was
%% served.
-module(link_probe).

-export([main/0]).
-export([served/1]).

%% The limit of calls that have no answer in time, and of the others.
-define(LIMIT_MS, 2000).
-define(LONG_MS, 3600000).

%% @doc Makes a call under each fault. Prints the fault's name, the outcome, the milliseconds of the call, and the
%% number of times that it was served.
-spec main() -> no_return().
main() ->
    ?MODULE = ets:new(?MODULE, [named_table, public, duplicate_bag]),
    Calls = [call(Name, Faults, LimitMs) || {Name, Faults, LimitMs} <- faults()],
    ok = await([{answer_dropped, 1}, {too_late, 1}, {repeated, 2}], 60000),
    [io:format("~p ~p ~b ~b~n", [Name, Outcome, Micros div 1000, times(Name)]) || {Name, {Micros, Outcome}} <- Calls],
    halt().

%% Waits until calls are served that arrive after their time, at most these milliseconds.
await(Wanted, Millis) ->
    case [Name || {Name, Times} <- Wanted, times(Name) < Times] of
        [_ | _] when Millis > 0 ->
            timer:sleep(10),
            await(Wanted, Millis - 10);
        _ ->
            ok
    end.

times(Name) ->
    length(ets:lookup(?MODULE, Name)).

faults() ->
    [
        {none, "", ?LONG_MS},
        {request_dropped, "drop 1 2\n", ?LIMIT_MS},
        {answer_dropped, "drop 2 1\n", ?LIMIT_MS},
        {others_dropped, "drop 1 3\ndrop 3 1\n", ?LONG_MS},
        {refused, "drop 1 2\ninstant\n", ?LONG_MS},
        {late, "late 1 2 60 60\nlate 2 1 40 40\n", ?LONG_MS},
        {too_late, "late 1 2 5000 5000\n", ?LIMIT_MS},
        {repeated, "repeat 1000\n", ?LONG_MS},
        {late_with_a_limit, "late 1 2 200 200\nlimit 3600000\n", 50}
    ].

call(Name, Faults, LimitMs) ->
    ok = file:write_file(os:getenv("NEMESIS_LINKS"), Faults),
    timer:sleep(10),
    {Name, timer:tc(fun() -> outcome(Name, LimitMs) end)}.

outcome(Name, LimitMs) ->
    try
        cluster_link:call(2, ?MODULE, served, [Name], LimitMs)
    catch
        error:{erpc, Reason} -> Reason
    end.

%% @private
-spec served(atom()) -> answered.
served(Name) ->
    true = ets:insert(?MODULE, {Name}),
    answered.
