%% @doc Copies of a put: at the other holders of its range, or as hints at carriers (the Dynamo paper, section 4.6).
%%
%% Each copy has a process. A holder that is down gets a hint at once, and is tried only if no carrier that is up keeps
%% it. A holder that is silent for longer than this node's patience gets a hint as well, from another process, while the
%% copy continues to its time limit.
%%
%% A carrier can't see that a clock is used for a second value. A holder that hasn't checked this node's disk since the
%% start ({@link cluster_range:unchecked/1}) is therefore asked first, for as long as a call may take.
-module(cluster_copies).

-export([spread/4]).

-record(copy, {
    range :: cluster_ring:range(),
    owner :: cluster_ring:place(),
    key :: binary(),
    version :: antientropy:version()
}).

-type outcome() :: {on, cluster_ring:place()} | {full, Owner :: cluster_ring:place()} | none.
%% The version is on the disk of a place; no carrier has space for the hint; or the version is on no further disk that
%% counts.

-type processes() :: #{reference() => {HintDueMs :: integer() | infinity, pid(), #copy{}}}.

%% @doc Copies a version to the other holders, all at once, and returns once W disks have it, including this node's. The
%% other copies continue.
-spec spread(cluster_ring:range(), Key :: binary(), antientropy:version(), W :: pos_integer()) ->
    {ok, On :: [cluster_ring:place()]} | cluster_refusal:refused().
spread(Range, Key, Version, W) ->
    Copies = [
        #copy{range = Range, owner = Partner, key = Key, version = Version}
     || Partner <- cluster_ring:partners(Range)
    ],
    await(W, maps:from_list(lists:map(fun begin_copy/1, Copies)), [cluster_ring:here()], []).

begin_copy(#copy{range = Range, owner = Owner} = Copy) ->
    IsUnchecked = lists:member(Owner, cluster_range:unchecked(Range)),
    Places = places(Copy, IsUnchecked),
    {Process, Monitor} = cluster_task:start(fun() -> bring_or_keep(Copy, Places) end),
    {Monitor, {hint_due_ms(Owner, Places, IsUnchecked), Process, Copy}}.

places(#copy{owner = Owner} = Copy, true) -> [Owner | cluster_wire:up_first(carriers(Copy))];
places(#copy{owner = Owner} = Copy, false) -> cluster_wire:up_first([Owner | carriers(Copy)]).

%% Returns the carriers for the owner of a copy, in an order that begins with a different carrier for each owner.
carriers(#copy{range = Range, owner = Owner}) ->
    Partners = cluster_ring:partners(Range),
    {Before, _} = lists:splitwith(fun(Partner) -> Partner =/= Owner end, Partners),
    Carriers = cluster_ring:carriers(Range),
    {First, Last} = lists:split(min(length(Before), length(Carriers)), Carriers),
    Last ++ First.

%% Returns the time at which a hint is due. A copy that begins with a hint needs no second one.
hint_due_ms(Owner, [Owner | _], false) -> now_ms() + patience_ms(Owner);
hint_due_ms(_, _, _) -> infinity.

patience_ms(Owner) ->
    cluster_patience:ms(Owner, {cluster_range, copy}).

%% ---- the put's process

%% Waits for outcomes until enough disks have the version. `Full' has the owners whose hints found no space.
-spec await(W :: pos_integer(), processes(), On :: [cluster_ring:place()], Full :: [cluster_ring:place()]) ->
    {ok, [cluster_ring:place()]} | cluster_refusal:refused().
await(W, Processes, On, Full) ->
    case length(On) >= W orelse map_size(Processes) =:= 0 of
        true ->
            ok = cluster_task:forget(maps:keys(Processes)),
            result(length(On) >= W, On, Full);
        false ->
            receive
                {'DOWN', Monitor, process, _, Reason} when is_map_key(Monitor, Processes) ->
                    Others = maps:remove(Monitor, Processes),
                    await_others(cluster_task:result(copies, Reason), W, Others, On, Full)
            after ms_to_first(Processes) ->
                await(W, with_hints_that_are_due(Processes), On, Full)
            end
    end.

await_others({ok, {on, Place}}, W, Processes, On, Full) -> await(W, Processes, lists:usort([Place | On]), Full);
await_others({ok, {full, Owner}}, W, Processes, On, Full) -> await(W, Processes, On, lists:usort([Owner | Full]));
await_others(_, W, Processes, On, Full) -> await(W, Processes, On, Full).

result(true, On, _) -> {ok, On};
result(false, _, []) -> {perhaps, down};
result(false, _, Full) -> {perhaps, hints_full, Full}.

ms_to_first(Processes) ->
    case lists:min([DueMs || {DueMs, _, _} <- maps:values(Processes)]) of
        infinity -> infinity;
        DueMs -> max(0, DueMs - now_ms())
    end.

with_hints_that_are_due(Processes) ->
    NowMs = now_ms(),
    Due = maps:filter(fun(_, {DueMs, _, _}) -> DueMs =< NowMs end, Processes),
    maps:fold(fun hint_if_silent/3, Processes, Due).

%% Begins a hint for a late copy, unless its owner responds to other calls.
hint_if_silent(Monitor, {_, Process, #copy{owner = Owner} = Copy}, Processes) ->
    PatienceMs = patience_ms(Owner),
    case cluster_patience:is_silent(Owner, PatienceMs) of
        true ->
            {HintProcess, HintMonitor} = cluster_task:start(fun() -> hint(Process, Copy) end),
            Processes#{Monitor := {infinity, Process, Copy}, HintMonitor => {infinity, HintProcess, Copy}};
        false ->
            Processes#{Monitor := {now_ms() + PatienceMs, Process, Copy}}
    end.

%% Sends a hint to a carrier, and notifies the process of the copy once it is kept.
hint(CopyProcess, Copy) ->
    Outcome = bring(Copy, cluster_wire:up_first(carriers(Copy)), none),
    is_on(Outcome) andalso (CopyProcess ! hinted),
    Outcome.

is_on({on, _}) -> true;
is_on(_) -> false.

now_ms() ->
    erlang:monotonic_time(millisecond).

%% ---- the process of a copy

%% Sends a copy to one of some places. The last resort for a hint is this node, which already has the version.
bring_or_keep(#copy{range = Range, owner = Owner, key = Key, version = Version} = Copy, Places) ->
    Outcome = bring(Copy, Places, none),
    Outcome =:= settled orelse is_on(Outcome) orelse cluster_hints:keep(Owner, Range, Key, Version),
    Outcome.

%% Sends a copy to the first of some places that takes it: its owner, or a carrier as a hint. `settled': the owner needs
%% nothing more.
-spec bring(#copy{}, [cluster_ring:place()], Failed :: outcome()) -> outcome() | settled.
bring(_, [], Failed) ->
    Failed;
bring(#copy{owner = Owner} = Copy, [Owner | Places], Failed) ->
    case copy(Copy) of
        failed ->
            case has_hint() of
                true -> settled;
                false -> bring(Copy, Places, Failed)
            end;
        Outcome ->
            Outcome
    end;
bring(#copy{range = Range, owner = Owner, key = Key, version = Version} = Copy, [Carrier | Places], Failed) ->
    case cluster_wire:call(Carrier, cluster_hints, keep, [Owner, Range, Key, Version]) of
        {ok, {ok, _}} -> {on, Carrier};
        {ok, {error, hints_full}} -> bring(Copy, Places, {full, Owner});
        _ -> bring(Copy, Places, Failed)
    end.

has_hint() ->
    receive
        hinted -> true
    after 0 -> false
    end.

copy(#copy{range = Range, owner = Owner, key = Key, version = Version} = Copy) ->
    case cluster_wire:call(Owner, cluster_range, copy, [Range, Key, Version]) of
        {ok, {ok, new}} -> {on, Owner};
        {ok, {ok, {known, Row}}} -> known(Copy, Row);
        {ok, {error, disk_full}} -> failed;
        {ok, {error, _}} -> settled;
        down -> failed
    end.

%% Judges by its row an owner that reports that it already has a version.
known(#copy{range = Range, owner = Owner, key = Key, version = Version}, Row) ->
    {ok, Own, Top, Life} = cluster_range:own(Range, Key),
    case cluster_known:judge(Version, Row, Own, Life, Top) of
        counts ->
            {on, Owner};
        unseen ->
            settled;
        forgotten ->
            ok = cluster_life:lost(Life, "place " ++ integer_to_list(Owner) ++ " has a later version of this life"),
            settled
    end.
