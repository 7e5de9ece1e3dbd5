%% @doc The renewal of a range. Another process makes the new journal while the range serves calls. The range puts it in
%% place of the old one when all entries are in the log, so the log continues at its place.
-module(cluster_renewal).

-export([start/1, received/2, awaited/1, finish/2, is_in_progress/1, drop/1]).

-export_type([renewal/0, message/0]).

-type renewal() ::
    none | {making, Maker :: pid(), Monitor :: reference()} | made() | {refused, Cause :: atom()} | later.
%% `later': the renewal was refused, and is tried again later.
-type made() :: {made, antientropy_renewal:renewal()}.
-type message() ::
    {renewal, Maker :: pid(), {ok, antientropy_renewal:renewal()} | antientropy:refused()}
    | {'DOWN', Monitor :: reference(), process, Maker :: pid(), Why :: term()}.

%% @doc Starts a process that makes a renewal, and sends a message with it.
-spec start(antientropy:replica()) -> renewal().
start(Replica) ->
    Range = self(),
    Limit = cluster_settings:limit(),
    Make = fun() -> Range ! {renewal, self(), antientropy:renewal(Replica, Limit)} end,
    {Maker, Monitor} = spawn_monitor(Make),
    {making, Maker, Monitor}.

%% @doc Returns the renewal after a message from a process that made one, perhaps of a replica that the range no longer
%% has.
-spec received(message(), renewal()) -> renewal().
received({renewal, Maker, Result}, {making, Maker, Monitor}) ->
    true = demonitor(Monitor, [flush]),
    made(Result);
received({renewal, _, Result}, Renewal) ->
    ok = drop(made(Result)),
    Renewal;
received({'DOWN', Monitor, process, Maker, _}, {making, Maker, Monitor}) ->
    {refused, crashed}.

made({ok, Made}) -> {made, Made};
made({error, Cause}) -> {refused, Cause}.

%% @doc Waits for the process that makes a renewal.
-spec awaited(renewal()) -> renewal().
awaited({making, Maker, Monitor} = Renewal) ->
    receive
        {renewal, Maker, _} = Message -> received(Message, Renewal);
        {'DOWN', Monitor, process, Maker, _} = Message -> received(Message, Renewal)
    end;
awaited(Renewal) ->
    Renewal.

%% @doc Puts the new journal in place of the old one, which is freed in another process. Returns the number of its
%% entries.
-spec finish(made(), antientropy:replica()) -> {ok, Held :: non_neg_integer()} | antientropy:refused().
finish({made, Made} = Renewal, Replica) ->
    Finished = antientropy_renewal:finish(Made),
    ok = drop(Renewal),
    case Finished of
        ok -> {ok, cluster_replica:used(Replica)};
        Refused -> Refused
    end.

%% @doc Returns true if a renewal is being made, or is made but not in place.
-spec is_in_progress(renewal()) -> boolean().
is_in_progress({making, _, _}) -> true;
is_in_progress({made, _}) -> true;
is_in_progress(_) -> false.

%% @doc Gives up a renewal. Its memory is freed in another process, so that no call waits for it.
-spec drop(renewal()) -> ok.
drop({making, _, Monitor}) ->
    true = demonitor(Monitor, [flush]),
    ok;
drop({made, Made}) ->
    _ = spawn(fun() -> ok = antientropy_renewal:close(Made) end),
    ok;
drop(_) ->
    ok.
