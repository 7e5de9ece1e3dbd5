%% @doc Hands hints to their owners when these are up again (the Dynamo paper, section 4.6).
-module(cluster_handoff).
-behaviour(gen_server).

-export([start_link/0, wake/1]).
-export([init/1, handle_call/3, handle_cast/2, handle_info/2]).

-define(EVERY_MS, 1000).
-define(MOST_AT_ONCE, 100).

%% Processes that deliver hints, each with the owner and the range of its hints.
-type state() :: #{reference() => cluster_hints:name()}.

%% @doc Starts the process of the hand-offs.
-spec start_link() -> {ok, pid()} | {error, term()}.
start_link() ->
    gen_server:start_link({local, ?MODULE}, ?MODULE, [], []).

%% @doc Starts the hand-offs to an owner that is up again. Other owners are tried once a second.
-spec wake(cluster_ring:place()) -> ok.
wake(Owner) ->
    gen_server:cast(?MODULE, {wake, Owner}).

%% @private
-spec init([]) -> {ok, state()}.
init([]) ->
    {ok, _} = timer:send_interval(?EVERY_MS, wake_all),
    {ok, #{}}.

%% @private
handle_call(Request, _, State) ->
    {reply, cluster_stray:call(?MODULE, Request), State}.

%% @private
handle_cast({wake, Owner}, State) ->
    {noreply, begin_for([Owner], State)};
handle_cast(Message, State) ->
    ok = cluster_stray:message(?MODULE, Message),
    {noreply, State}.

%% @private
handle_info(wake_all, State) ->
    {noreply, begin_for(cluster_ring:others() -- cluster_wire:down(), State)};
handle_info({'DOWN', Monitor, process, _, Reason}, State) ->
    _ = cluster_task:result(handoff, Reason),
    {noreply, maps:remove(Monitor, State)};
handle_info(Message, State) ->
    ok = cluster_stray:message(?MODULE, Message),
    {noreply, State}.

%% Starts the hand-offs to some owners, unless they are in progress. A confirmation needs space on the disk.
begin_for(Owners, State) ->
    case cluster_settings:is_handoff_on() andalso not cluster_space:is_full() of
        true ->
            Waiting = [Name || {Owner, _} = Name <- cluster_hints:waiting(), lists:member(Owner, Owners)],
            lists:foldl(fun begin_one/2, State, Waiting -- maps:values(State));
        false ->
            State
    end.

%% (The process that delivers hints ends with this one: their numbers are valid only while the same process keeps them.)
begin_one(Name, State) ->
    {_, Monitor} = cluster_task:start_link(fun() -> hand_off(Name, 0) end),
    State#{Monitor => Name}.

%% Delivers the hints of a queue after a number, some at a time, until none is left or the owner is down.
hand_off({Owner, Range} = Name, After) ->
    case cluster_hints:pending(Owner, Range, After, ?MOST_AT_ONCE) of
        [] -> true;
        Hints -> hand_off_some(Name, Hints)
    end.

hand_off_some({Owner, Range} = Name, Hints) ->
    ok = cluster_slots:lend(),
    Delivered = deliver(Name, Hints),
    ok = cluster_slots:give_back(),
    case Delivered of
        {ok, Outcomes} ->
            #{number := Last} = lists:last(Hints),
            cluster_hints:confirm(Owner, Range, Outcomes) =:= ok andalso hand_off(Name, Last);
        down ->
            false
    end.

%% Delivers hints, and returns the outcome of each hint that the owner has on its disk.
deliver({Owner, Range}, Hints) ->
    Copies = [{Key, maps:with([clock, value], Hint)} || #{key := Key} = Hint <- Hints],
    case cluster_wire:call(Owner, cluster_range, copies, [Range, Copies]) of
        {ok, Answers} -> {ok, [{Number, Outcome} || {#{number := Number}, {ok, Outcome}} <- lists:zip(Hints, Answers)]};
        down -> down
    end.
