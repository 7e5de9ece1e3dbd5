%% @doc Slots for background work, whose number follows the measured latency of puts.
-module(cluster_slots).
-behaviour(gen_server).

-export([start_link/0, lend/0, give_back/0, sample/1, count/0, holders/0]).
-export([init/1, handle_call/3, handle_cast/2, handle_info/2]).

-define(ADJUST_MS, 1000).

-type monitors() :: #{reference() => pid()}.

-record(state, {
    slots :: antientropy_slots:slots(),
    %% The 99th percentile of the latency of puts in the last minute.
    p99_micros = none :: non_neg_integer() | none,
    %% Monitors of the processes that have a slot, one for each slot, and of the waiting processes, in order.
    borrowers = #{} :: monitors(),
    waiting = queue:new() :: queue:queue({reference(), gen_server:from()})
}).

%% @doc Starts the process of the slots.
-spec start_link() -> {ok, pid()} | {error, term()}.
start_link() ->
    gen_server:start_link({local, ?MODULE}, ?MODULE, cluster_settings:slots(), []).

%% @doc Lends a slot to this process, as soon as one is free, until it gives it back or ends.
-spec lend() -> ok.
lend() ->
    gen_server:call(?MODULE, lend, infinity).

%% @doc Gives a slot of this process back.
-spec give_back() -> ok.
give_back() ->
    gen_server:call(?MODULE, give_back, infinity).

%% @doc Records the latency of a put, in microseconds.
-spec sample(Micros :: non_neg_integer()) -> ok.
sample(Micros) ->
    gen_server:cast(?MODULE, {sample, Micros}).

%% @doc Returns the target, the numbers of slots that are lent and free and of waiting processes, and the 99th
%% percentile of the latency of puts.
-spec count() -> #{
    target := pos_integer(),
    lent := non_neg_integer(),
    free := non_neg_integer(),
    waiting := non_neg_integer(),
    p99_micros := non_neg_integer() | none
}.
count() ->
    gen_server:call(?MODULE, count, infinity).

%% @doc Returns the processes that have a slot now.
-spec holders() -> [pid()].
holders() ->
    gen_server:call(?MODULE, holders, infinity).

%% @private
init({Floor, Ceiling, ThresholdMicros}) ->
    {ok, Slots} = antientropy_slots:new(Floor, Ceiling, ThresholdMicros),
    {ok, _} = timer:send_interval(?ADJUST_MS, adjust),
    {ok, #state{slots = Slots}}.

%% @private
handle_call(lend, {Borrower, _} = From, #state{waiting = Waiting} = State) ->
    Monitor = monitor(process, Borrower),
    {noreply, lend_free(State#state{waiting = queue:in({Monitor, From}, Waiting)})};
handle_call(give_back, {Borrower, _}, #state{borrowers = Borrowers} = State) ->
    %% (A process that borrowed a slot before this one started has no monitor.)
    case [Monitor || {Monitor, Process} <- maps:to_list(Borrowers), Process =:= Borrower] of
        [Monitor | _] -> {reply, ok, lend_free(returned(Monitor, State))};
        [] -> {reply, ok, State}
    end;
handle_call(holders, _, #state{borrowers = Borrowers} = State) ->
    {reply, lists:usort(maps:values(Borrowers)), State};
handle_call(count, _, #state{slots = Slots, p99_micros = Micros, waiting = Waiting} = State) ->
    {ok, Counts} = antientropy_slots:count(Slots),
    {reply, Counts#{p99_micros => Micros, waiting => queue:len(Waiting)}, State};
handle_call(Request, _, State) ->
    {reply, cluster_stray:call(?MODULE, Request), State}.

%% @private
handle_cast({sample, Micros}, #state{slots = Slots} = State) ->
    ok = antientropy_slots:sample(Slots, now_ms(), Micros),
    {noreply, State};
handle_cast(Message, State) ->
    ok = cluster_stray:message(?MODULE, Message),
    {noreply, State}.

%% @private
handle_info(adjust, #state{slots = Slots} = State) ->
    {ok, Micros} = antientropy_slots:adjust(Slots, now_ms()),
    {noreply, lend_free(State#state{p99_micros = Micros})};
handle_info({'DOWN', Monitor, process, _, _}, #state{borrowers = Borrowers} = State) ->
    case is_map_key(Monitor, Borrowers) of
        true -> {noreply, lend_free(returned(Monitor, State))};
        false -> {noreply, without_waiting(Monitor, State)}
    end;
handle_info(Message, State) ->
    ok = cluster_stray:message(?MODULE, Message),
    {noreply, State}.

%% Lends slots to the waiting processes while any are free.
lend_free(#state{slots = Slots, borrowers = Borrowers, waiting = Waiting} = State) ->
    case queue:out(Waiting) of
        {{value, {Monitor, {Borrower, _} = From}}, Others} ->
            case antientropy_slots:lend(Slots) of
                ok ->
                    ok = gen_server:reply(From, ok),
                    lend_free(State#state{borrowers = Borrowers#{Monitor => Borrower}, waiting = Others});
                {error, no_slot} ->
                    State
            end;
        {empty, _} ->
            State
    end.

returned(Monitor, #state{slots = Slots, borrowers = Borrowers} = State) ->
    true = demonitor(Monitor, [flush]),
    ok = antientropy_slots:give_back(Slots),
    State#state{borrowers = maps:remove(Monitor, Borrowers)}.

without_waiting(Monitor, #state{waiting = Waiting} = State) ->
    State#state{waiting = queue:delete_with(fun({Other, _}) -> Other =:= Monitor end, Waiting)}.

%% Returns the time since the start of the node: Erlang's monotonic time may be negative.
now_ms() ->
    erlang:convert_time_unit(erlang:monotonic_time() - erlang:system_info(start_time), native, millisecond).
