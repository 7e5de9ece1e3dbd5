%% @doc A request that this node forwards to other holders of its key.
%%
%% The holders are asked in turn. If one is silent for longer than this node's patience, the next one is asked as well,
%% and the first answer counts. All holders that are asked to put have the same claim, so one of them puts
%% ({@link cluster_claims}). If that one refuses, the others get another claim.
-module(cluster_errand).

-export([run/3]).

-export_type([request/0, answer/0]).

%% Calls that a holder makes in a row, each up to its time limit: to this node, to another holder, and then to a
%% carrier.
-define(CALLS_IN_A_ROW, 3).

-type request() :: {put, Arguments :: [term()]} | {get, Arguments :: [term()]}.
%% Arguments of {@link cluster_coordinator:put_claimed/6} after the claim, or of {@link cluster_coordinator:get_here/3}.
-type answer() :: {ok, map()} | cluster_refusal:refused().

-record(errand, {
    request :: request(),
    claim = none :: cluster_claims:claim() | none,
    unasked :: [cluster_ring:place()],
    %% Holders that haven't answered, each with the monitor of the process that calls it.
    calls = #{} :: #{reference() => cluster_ring:place()},
    %% The last holder that was asked, the time when it was asked, and the time until the next look at it.
    last = none :: cluster_ring:place() | none,
    asked_ms = 0 :: integer(),
    wait_ms = infinity :: timeout(),
    %% The refusal that the client gets if all refuse.
    refused :: atom()
}).

%% @doc Runs a request at the first of some holders that does it, or may have done it. `Refused' is the name by which
%% the request was refused before: see {@link cluster_refusal:first/2}.
-spec run(request(), [cluster_ring:place()], Refused :: atom()) -> answer().
run(Request, Holders, Refused) ->
    go_on(with_claim(#errand{request = Request, unasked = Holders, refused = Refused})).

with_claim(#errand{request = {put, _}} = Errand) -> Errand#errand{claim = cluster_claims:new()};
with_claim(#errand{request = {get, _}} = Errand) -> Errand.

go_on(#errand{calls = Calls, unasked = Unasked, wait_ms = WaitMs} = Errand) ->
    case {map_size(Calls), Unasked =:= [] orelse is_taken(Errand)} of
        {0, true} ->
            give_up(Errand);
        {0, false} ->
            go_on(ask_next(Errand));
        _ ->
            receive
                {'DOWN', Call, process, _, Reason} when is_map_key(Call, Calls) ->
                    Left = Errand#errand{calls = maps:remove(Call, Calls)},
                    answered(result(cluster_task:result(errand, Reason)), Left)
            after WaitMs -> late(Errand)
            end
    end.

%% ---- asking

%% Asks the next holder that is up. As a last resort, asks all holders that are down at once.
ask_next(#errand{unasked = Unasked} = Errand) ->
    [Holder | Others] = Next = cluster_wire:up_first(Unasked),
    case cluster_wire:is_up(Holder) of
        true -> ask([Holder], Errand#errand{unasked = Others});
        false -> ask(Next, Errand#errand{unasked = []})
    end.

ask([Last | _] = Holders, #errand{calls = Before, unasked = Unasked, request = Request} = Errand) ->
    Calls = maps:merge(Before, maps:from_list([{begin_call(Holder, Errand), Holder} || Holder <- Holders])),
    WaitMs = wait_ms(Holders, Unasked, maps:values(Calls), Request),
    Errand#errand{calls = Calls, last = Last, asked_ms = now_ms(), wait_ms = WaitMs}.

begin_call(Holder, #errand{request = Request, claim = Claim}) ->
    Claim =:= none orelse cluster_claims:give(Claim, Holder),
    LimitMs = ?CALLS_IN_A_ROW * cluster_wire:limit_ms(),
    {Function, Arguments} = function(Request, Claim),
    Call = fun() -> cluster_wire:call(Holder, cluster_coordinator, Function, Arguments, LimitMs) end,
    {_, Monitor} = cluster_task:start(Call),
    Monitor.

function({put, Arguments}, Claim) -> {put_claimed, [Claim | Arguments]};
function({get, Arguments}, none) -> {get_here, Arguments}.

%% Returns the time until the next look. Once all holders are asked, those that are up have the time limit of a call.
wait_ms(Holders, Others, Asked, Request) ->
    case Others =:= [] andalso lists:any(fun cluster_wire:is_up/1, Asked) of
        true -> cluster_wire:limit_ms();
        false -> lists:max([cluster_patience:ms(Holder, kind(Request)) || Holder <- Holders])
    end.

kind({put, _}) -> {cluster_claims, take};
kind({get, _}) -> {cluster_coordinator, get_here}.

%% ---- answers

result({ok, Result}) -> Result;
result(crashed) -> down.

answered(Nothing, Errand) when Nothing =:= down; Nothing =:= {ok, unclaimed} ->
    go_on(Errand);
answered({ok, {refused, Name}}, #errand{refused = Refused} = Errand) ->
    case cluster_refusal:is_final(Name) of
        true -> ended({refused, Name}, Errand);
        false -> go_on(without_one(Errand#errand{refused = cluster_refusal:first(Refused, Name)}))
    end;
answered({ok, Answer}, Errand) ->
    ended(Answer, Errand).

%% Makes another claim if a holder refuses a put: it has taken the claim, so the others can't.
without_one(#errand{claim = none} = Errand) ->
    Errand;
without_one(#errand{calls = Calls, unasked = Unasked} = Errand) ->
    ok = leave(Calls),
    with_claim(Errand#errand{calls = #{}, unasked = Unasked ++ maps:values(Calls)}).

ended(Answer, #errand{calls = Calls}) ->
    ok = leave(Calls),
    Answer.

leave(Calls) ->
    cluster_task:forget(maps:keys(Calls)).

%% ---- silence

%% Asks the next holder as well, unless the put has begun, or the last holder responds to other calls.
late(#errand{unasked = Unasked, last = Last, asked_ms = AskedMs, wait_ms = WaitMs} = Errand) ->
    IsOver = now_ms() - AskedMs >= cluster_wire:limit_ms(),
    case {is_taken(Errand), Unasked} of
        {true, _} ->
            go_on(Errand#errand{wait_ms = infinity});
        {false, []} ->
            give_up(Errand);
        {false, _} ->
            case IsOver orelse cluster_patience:is_silent(Last, WaitMs) of
                true -> go_on(ask_next(Errand));
                false -> go_on(Errand)
            end
    end.

is_taken(#errand{claim = none}) -> false;
is_taken(#errand{claim = Claim}) -> cluster_claims:is_taken(Claim).

%% Refuses the request, unless a holder has begun the put: then it waits for the calls, which all have a limit.
give_up(#errand{claim = Claim, calls = Calls, refused = Refused} = Errand) ->
    case Claim =:= none orelse cluster_claims:withdraw(Claim) of
        true -> ended({refused, Refused}, Errand);
        false when map_size(Calls) =:= 0 -> {perhaps, down};
        false -> go_on(Errand#errand{wait_ms = infinity})
    end.

now_ms() ->
    erlang:monotonic_time(millisecond).
