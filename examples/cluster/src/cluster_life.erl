%% @doc The life of this node's disk, and the start and end of everything that needs a life.
%%
%% Counters of a life must not go back (docs/EMBEDDING_C.md, "Restarts"). A node that can't show that it has everything
%% therefore doesn't put under its old number: its files are kept aside, and it takes a new life. At a start the disk
%% shows it ({@link cluster_folder}), and then the other places do, before the first put: their versions of this life
%% must not be later than those on the disk. If a loss is found later, the processes of {@link cluster_store} end, and
%% start again with a new life.
-module(cluster_life).
-behaviour(gen_server).

-export([start_link/0, phase/0, number/0, is_ready/0, lost/2, enter/1]).
-export([init/1, handle_call/3, handle_cast/2, handle_continue/2, handle_info/2]).

-export_type([phase/0]).

-define(AGAIN_MS, 1000).
%% Time that a starting node waits for other starting nodes.
-define(PATIENCE_MS, 5000).
-define(LOOK_MS, 100).

-type phase() :: none | {starting | ready, cluster_lives:life()}.
%% No life yet; a life whose ranges take missing versions; a life that serves clients.

-record(state, {
    %% The incarnation that an operator named, until a life has begun.
    named :: pos_integer() | none,
    starter :: pid() | undefined,
    store :: reference() | undefined
}).

%% @doc Starts the process, which begins or continues a life.
-spec start_link() -> {ok, pid()} | {error, term()}.
start_link() ->
    gen_server:start_link({local, ?MODULE}, ?MODULE, [], []).

%% @doc Returns the phase of the start.
-spec phase() -> phase().
phase() ->
    persistent_term:get(?MODULE, none).

%% @doc Returns this node's number in clocks, or `none'.
-spec number() -> cluster_lives:life() | none.
number() ->
    case phase() of
        {_, Number} -> Number;
        none -> none
    end.

%% @doc Returns true if clients may put and get.
-spec is_ready() -> boolean().
is_ready() ->
    case phase() of
        {ready, _} -> true;
        _ -> false
    end.

%% @doc Reports that the disk of a life has lost something. On return that life is given up, durably, and the processes
%% of the store are about to end: the caller must not answer.
-spec lost(cluster_lives:life(), Why :: string()) -> ok.
lost(Life, Why) ->
    gen_server:call(?MODULE, {lost, Life, Why}, infinity).

%% @private
%% @doc Enters a phase.
-spec enter(phase()) -> ok.
enter(Phase) ->
    persistent_term:put(?MODULE, Phase).

%% @private
init([]) ->
    ok = enter(none),
    {ok, #state{named = cluster_settings:incarnation()}, {continue, begin_again}}.

%% @private
handle_call({lost, Life, Why}, _, State) ->
    case number() of
        Life ->
            Stopped = without_starter(State),
            ok = enter(none),
            ok = cluster_folder:give_up(Why),
            {reply, ok, Stopped, {continue, begin_again}};
        _ ->
            {reply, ok, State}
    end;
handle_call({started, Store}, {Starter, _}, #state{starter = Starter} = State) ->
    {reply, ok, State#state{store = monitor(process, Store), named = none}};
handle_call({started, _}, _, State) ->
    {reply, ok, State};
handle_call(Request, _, State) ->
    {reply, cluster_stray:call(?MODULE, Request), State}.

%% @private
handle_cast(Message, State) ->
    ok = cluster_stray:message(?MODULE, Message),
    {noreply, State}.

%% Ends the store, and starts it again. The starter's calls take time, and `lost' must not wait for them.
%% @private
handle_continue(begin_again, #state{store = Store, named = Named} = State) ->
    Store =:= undefined orelse demonitor(Store, [flush]),
    ok = cluster_store:stop(),
    {noreply, State#state{store = undefined, starter = spawn_link(fun() -> start(Named) end)}}.

%% @private
handle_info({'DOWN', Store, process, _, _}, #state{store = Store} = State) ->
    %% (Also when the node stops: then it isn't an error.)
    {stop, shutdown, State};
handle_info(Message, State) ->
    ok = cluster_stray:message(?MODULE, Message),
    {noreply, State}.

%% Ends the starter before its next step, if it still runs.
without_starter(#state{starter = Starter} = State) ->
    Monitor = monitor(process, Starter),
    true = unlink(Starter),
    true = exit(Starter, kill),
    receive
        {'DOWN', Monitor, process, _, _} -> State
    end.

%% ---- the start

start(Named) ->
    Life = cluster_lives:number(cluster_ring:here(), incarnation(cluster_folder:state(), Named)),
    ok = enter({starting, Life}),
    io:format("life ~b~n", [Life]),
    {ok, Store} = cluster_store:start(),
    ok = gen_server:call(?MODULE, {started, Store}, infinity),
    ok = take_what_is_lacking(erlang:monotonic_time(millisecond) + ?PATIENCE_MS),
    ok = check_for_a_later_life(Life),
    ok = enter({ready, Life}),
    ok = cluster_event:note(ready, [{life, Life}]),
    io:format("ready~n").

incarnation({whole, Incarnation}, _) ->
    ok = cluster_folder:end_mark(),
    Incarnation;
incarnation(empty, Named) ->
    Incarnation = new_incarnation(Named),
    Incarnation =:= 1 orelse say("the disk of place ~b is empty: a new life begins", [cluster_ring:here()]),
    Incarnation;
incarnation({damaged, Why}, Named) ->
    ok = cluster_folder:give_up(Why),
    {ok, Aside} = again_if_full(fun cluster_folder:move_aside/0),
    Kept = filename:join(cluster_settings:folder(), Aside),
    Format = "the disk of place ~b is damaged: ~ts; it is kept in ~ts, and a new life begins",
    ok = cluster_metrics:count(events, [{event, damage}]),
    ok = say(Format, [cluster_ring:here(), Why, Kept]),
    new_incarnation(Named);
incarnation({refused, Why}, _) ->
    cluster_app:refuse(Why).

new_incarnation(Named) ->
    ok = again_if_full(fun cluster_lives:begin_anew/0),
    Incarnation = cluster_incarnation:take(Named),
    ok = again_if_full(fun() -> cluster_folder:make(Incarnation) end),
    ok = cluster_event:note(new_life, [{incarnation, Incarnation}]),
    Incarnation.

say(Format, Arguments) ->
    io:format(standard_error, Format ++ "~n", Arguments).

%% Repeats a step of a new life while the disk is full.
again_if_full(Step) ->
    case Step() of
        Full when Full =:= full; Full =:= {error, disk_full} ->
            ok = cluster_space:full(),
            timer:sleep(?AGAIN_MS),
            again_if_full(Step);
        Done ->
            Done
    end.

%% Takes the versions of the places that answer. Waits a little for places that are starting.
take_what_is_lacking(Deadline) ->
    Lacking = cluster_repair:round(),
    IsLate = erlang:monotonic_time(millisecond) > Deadline,
    case not IsLate andalso lists:any(fun is_starting/1, lists:usort([Place || {_, Place} <- Lacking])) of
        true ->
            timer:sleep(?LOOK_MS),
            take_what_is_lacking(Deadline);
        false ->
            ok
    end.

is_starting(Place) ->
    case cluster_wire:call(Place, ?MODULE, phase, []) of
        {ok, {ready, _}} -> false;
        {ok, _} -> true;
        down -> false
    end.

%% Gives up the life if a later one of this place has begun: this disk is an old one.
check_for_a_later_life(Life) ->
    Here = cluster_ring:here(),
    Ask = fun(Place) -> cluster_wire:call(Place, cluster_lives, known, [Here]) end,
    Known = [Known || {ok, {ok, Known}} <- lists:map(Ask, cluster_ring:others())],
    case [Later || Later <- Known, cluster_lives:number(Here, Later) > Life] of
        [] -> ok;
        _ -> lost(Life, "a later life of this place has begun")
    end.
