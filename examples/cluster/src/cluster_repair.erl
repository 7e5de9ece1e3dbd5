%% @doc Anti-entropy in rounds (the Dynamo paper, section 4.7): in each round, this node takes the versions that each of
%% its ranges is missing from each other holder.
-module(cluster_repair).
-behaviour(gen_server).

-export([start_link/0, round/0, count/0]).
-export([init/1, handle_call/3, handle_cast/2, handle_info/2]).

-export_type([counts/0]).

%% Maximum number of lost asks. Asks without an answer in a reply are lost, and sent again: leaves were larger than
%% estimated.
-define(MOST_LOST, 4096).
%% Maximum number of bytes of a reply over their estimate: a single row may have 4 MB.
-define(MOST_EXCESS, 8_000_000).
%% Time between two tries to borrow a replica that is to be renewed.
-define(BUSY_MS, 5).

-type counts() :: #{rounds := non_neg_integer(), keys := non_neg_integer(), bytes := non_neg_integer()}.
%% Numbers of rounds, of versions that were taken, and of bytes of answers.

-type cause() :: atom().
-type pull() :: {cluster_ring:range(), cluster_ring:place()}.
-type failed() :: #{pull() => cause()}.
-type excess() :: #{pull() => pos_integer()}.
%% Bytes that the replies of a partner that was silent in the last round may have over their estimate. It has more time
%% from round to round, so that a sync over a slow link finishes.
-type pulled() :: {all | cause(), Keys :: non_neg_integer(), Bytes :: non_neg_integer()}.
%% `all', or the cause why not all versions were taken, and the numbers of versions and of bytes.

-record(state, {
    counts = #{rounds => 0, keys => 0, bytes => 0} :: counts(),
    %% Pulls that didn't take everything in the last round.
    failed = #{} :: failed(),
    excess = #{} :: excess(),
    timer :: reference() | undefined,
    %% The round in progress, and the callers that wait for its end, or for the end of the next one.
    running :: reference() | undefined,
    waiting = [] :: [gen_server:from()],
    next = [] :: [gen_server:from()]
}).

%% @doc Starts the process of the rounds.
-spec start_link() -> {ok, pid()} | {error, term()}.
start_link() ->
    gen_server:start_link({local, ?MODULE}, ?MODULE, [], []).

%% @doc Runs a round now. At its end, returns the ranges and partners whose versions weren't all taken.
-spec round() -> [{cluster_ring:range(), cluster_ring:place()}].
round() ->
    gen_server:call(?MODULE, round, infinity).

%% @doc Returns the counts since the start.
-spec count() -> counts().
count() ->
    gen_server:call(?MODULE, count, infinity).

%% @private
init([]) ->
    {ok, begin_later(#state{})}.

%% @private
handle_call(round, From, #state{next = Next} = State) ->
    {noreply, begin_if_asked(State#state{next = [From | Next]})};
handle_call(count, _, #state{counts = Counts} = State) ->
    {reply, Counts, State};
handle_call(Request, _, State) ->
    {reply, cluster_stray:call(?MODULE, Request), State}.

%% @private
handle_cast(Message, State) ->
    ok = cluster_stray:message(?MODULE, Message),
    {noreply, State}.

%% @private
handle_info({timeout, Timer, round}, #state{timer = Timer} = State) ->
    case cluster_settings:is_repair_on() orelse is_unchecked() of
        true -> {noreply, begin_round(State)};
        false -> {noreply, begin_later(State)}
    end;
handle_info({timeout, _, round}, State) ->
    {noreply, State};
handle_info({'DOWN', Running, process, _, Reason}, #state{running = Running, waiting = Waiting} = State) ->
    {Lacking, Ended} = ended(cluster_task:result(repair, Reason), State#state{running = undefined, waiting = []}),
    [gen_server:reply(From, Lacking) || From <- Waiting],
    {noreply, begin_if_asked(begin_later(Ended))};
handle_info(Message, State) ->
    ok = cluster_stray:message(?MODULE, Message),
    {noreply, State}.

%% Returns true if a range hasn't taken the others' versions yet, which it does after a start in order to join.
is_unchecked() ->
    lists:any(fun(Range) -> cluster_range:unchecked(Range) =/= [] end, cluster_ring:held()).

begin_if_asked(#state{running = undefined, next = [_ | _]} = State) -> begin_round(State);
begin_if_asked(State) -> State.

begin_round(#state{next = Next, excess = Excess} = State) ->
    {_, Running} = cluster_task:start_link(fun() -> pull_all(Excess) end),
    State#state{timer = undefined, running = Running, waiting = Next, next = []}.

begin_later(State) ->
    State#state{timer = erlang:start_timer(cluster_settings:round_ms(), self(), round)}.

ended({ok, {pulled, MoreKeys, MoreBytes, Failed}}, State) ->
    #state{counts = Counts, failed = Before, excess = Excess} = State,
    #{rounds := Rounds, keys := Keys, bytes := Bytes} = Counts,
    ok = cluster_metrics:count(repair_rounds, []),
    ok = cluster_metrics:add(repair_keys, [], MoreKeys),
    ok = cluster_metrics:add(repair_bytes, [], MoreBytes),
    ok = lists:foreach(fun note_failure/1, maps:to_list(Failed) -- maps:to_list(Before)),
    Next = #{rounds => Rounds + 1, keys => Keys + MoreKeys, bytes => Bytes + MoreBytes},
    {maps:keys(Failed), State#state{counts = Next, failed = Failed, excess = grown(Failed, Excess)}};
ended(crashed, State) ->
    {pulls(), State}.

grown(Failed, Excess) ->
    Grow = fun(Pull) -> min(?MOST_EXCESS, max(cluster_wire:message_bytes(), 2 * maps:get(Pull, Excess, 0))) end,
    maps:from_list([{Pull, Grow(Pull)} || {Pull, silent} <- maps:to_list(Failed)]).

%% Logs a failed sync once, until it fails for another cause. (A place that is down has a line of its own.)
note_failure({_, Why}) when Why =:= down; Why =:= disk_full ->
    ok;
note_failure({{Range, Partner}, Why}) ->
    cluster_event:note(sync_failed, [{range, Range}, {partner, Partner}, {cause, Why}]).

%% ---- a round

%% Returns all ranges, each with its other holders.
pulls() ->
    [{Range, Partner} || Range <- cluster_ring:held(), Partner <- cluster_ring:partners(Range)].

%% Pulls each range from each other holder, concurrently on the slots that are lent. Returns the sums of keys and bytes,
%% and the cause of each pull that didn't take everything.
-spec pull_all(excess()) -> {pulled, Keys :: non_neg_integer(), Bytes :: non_neg_integer(), failed()}.
pull_all(Excess) ->
    Begun = [begin_pull(Pull, maps:get(Pull, Excess, 0)) || Pull <- pulls()],
    lists:foldl(fun add_pulled/2, {pulled, 0, 0, #{}}, Begun).

begin_pull(Pull, Excess) ->
    {Pull, cluster_task:start_link(fun() -> pull_admitted(Pull, Excess) end)}.

add_pulled({Pull, {_, Monitor}}, {pulled, Keys, Bytes, Failed}) ->
    {Outcome, MoreKeys, MoreBytes} = pulled(Monitor),
    ok = cluster_metrics:count(pulls, [{outcome, Outcome}]),
    case Outcome of
        all -> {pulled, Keys + MoreKeys, Bytes + MoreBytes, Failed};
        Why -> {pulled, Keys + MoreKeys, Bytes + MoreBytes, Failed#{Pull => Why}}
    end.

pulled(Monitor) ->
    receive
        {'DOWN', Monitor, process, _, Reason} ->
            case cluster_task:result(repair, Reason) of
                {ok, Pulled} -> Pulled;
                crashed -> {crashed, 0, 0}
            end
    end.

%% (The slot is free again when this process ends.)
pull_admitted(Pull, Excess) ->
    ok = cluster_slots:lend(),
    pull(Pull, Excess).

%% Takes the versions of a partner.
-spec pull(pull(), Excess :: non_neg_integer()) -> pulled().
pull({Range, Partner} = Pull, Excess) ->
    case cluster_wire:call(Partner, cluster_range, offer, [Range, cluster_ring:here()]) of
        {ok, {ok, Offer}} -> pull_offered(Pull, Excess, Offer, borrowed(Range));
        down -> {down, 0, 0}
    end.

%% Borrows the replica, once no renewal is in the way: a start must not continue without this pull.
borrowed(Range) ->
    case cluster_range:borrow(Range) of
        {error, busy} ->
            timer:sleep(?BUSY_MS),
            borrowed(Range);
        Borrowed ->
            Borrowed
    end.

pull_offered({Range, Partner}, Excess, Offer, {ok, Replica}) ->
    {ok, #{number := Number}} = antientropy:read_offer(Offer),
    Serve = fun(Asks, Bytes) ->
        Arguments = [Range, cluster_ring:here(), Number, Asks],
        LimitMs = cluster_wire:limit_ms(iolist_size(Asks) + Bytes + Excess),
        cluster_wire:call(Partner, cluster_range, serve, Arguments, LimitMs)
    end,
    Bounds = #{bytes => cluster_wire:message_bytes(), bad => 0, lost => ?MOST_LOST},
    Pulled = sync(antientropy:exchange(Replica, Partner, Offer, Bounds), Serve),
    ok = cluster_range:give_back(Range, Replica, taken(Pulled, Partner)),
    Pulled;
pull_offered(_, _, _, {error, Name}) ->
    {Name, 0, 0}.

taken({all, _, _}, Partner) -> {all_of, Partner};
taken(_, _) -> some.

%% Runs an exchange, during puts. If the roots are equal there is no session.
sync({ok, Exchange}, Serve) ->
    try
        exchange(Exchange, Serve, 0)
    after
        antientropy_exchange:close(Exchange)
    end;
sync({error, Name}, _) ->
    {Name, 0, 0}.

%% Asks until there is nothing left to ask, or the partner returns no answers.
exchange(Exchange, Serve, Bytes) ->
    case {antientropy_exchange:asks(Exchange), antientropy_exchange:progress(Exchange)} of
        {{ok, []}, {ok, #{accepted := Keys} = Progress}} ->
            {outcome(Progress), Keys, Bytes};
        {{ok, Asks}, {ok, #{accepted := Keys, bytes_in_flight := InFlight}}} ->
            case Serve(Asks, InFlight) of
                {ok, [_ | _] = Answers} -> exchange(Exchange, Serve, Bytes + take(Exchange, Asks, Answers));
                {ok, []} -> {gone, Keys, Bytes};
                down -> {silent, Keys, Bytes}
            end;
        {_, {error, Name}} ->
            {Name, 0, Bytes}
    end.

%% Takes answers, and returns their length in bytes.
take(Exchange, Asks, Answers) ->
    Taken = [Answer || {ok, Answer} <- Answers],
    lists:foreach(fun(Answer) -> antientropy_exchange:take(Exchange, Answer) end, Taken),
    lists:foreach(fun(Ask) -> antientropy_exchange:lose(Exchange, Ask) end, Asks),
    iolist_size(Taken).

outcome(#{report := finished}) -> all;
outcome(#{report := left}) -> crowded;
outcome(#{report := stopped, cause := Cause}) -> Cause;
outcome(#{report := Report}) -> Report.
