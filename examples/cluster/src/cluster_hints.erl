%% @doc The hints that this node carries for places that are down (the Dynamo paper, section 4.6).
%%
%% There is a queue for each owner and range ({@link cluster_hint_queue}), with a limit in bytes from the settings, so a
%% range of a place that is down for long doesn't take the space of others.
%%
%% Each hint that is kept or confirmed is in a log, which is synced before the answer: one sync serves all waiting
%% calls. A checkpoint gets the pending hints after as many deliveries as there are pending hints, and at least 1,000.
%% The disk therefore holds at most a small multiple of the pending bytes, and neither it nor the memory grows without
%% limit.
%%
%% Numbers of a queue's hints continue through checkpoints, restarts and lives, so none names two of its hints: in each
%% life they begin at its incarnation times 2^40.
-module(cluster_hints).
-behaviour(gen_server).

-export([start_link/0, keep/4, confirm/3, pending/4, waiting/0, count/0]).
-export([init/1, handle_call/3, handle_cast/2, handle_info/2, format_status/1]).

-define(MOST_WAITING, 512).
%% Minimum number of deliveries before a checkpoint.
-define(LEAST_DELIVERED, 1000).

-export_type([name/0]).

-type name() :: {Owner :: cluster_ring:place(), cluster_ring:range()}.
-type record() :: {keep, name(), cluster_hint_queue:kept()} | {confirm, name(), cluster_hint_queue:outcome()}.
-type queues() :: #{name() => cluster_hint_queue:queue()}.
-type request() :: tuple() | atom().

-record(state, {
    life :: cluster_lives:life(),
    queues :: queues(),
    log :: cluster_log:log(),
    %% Records that aren't in the log, and the answers waiting for them, both with the last one first.
    records = [] :: [record()],
    waiting = [] :: [{gen_server:from(), request(), Answer :: term()}],
    %% Queues that have refused a hint since their last delivery.
    full = [] :: [name()],
    %% Hints that were delivered before the last checkpoint.
    delivered = 0 :: non_neg_integer()
}).

%% @doc Starts the process of the hints, with those on its disk.
-spec start_link() -> {ok, pid()} | {error, term()}.
start_link() ->
    gen_server:start_link({local, ?MODULE}, ?MODULE, [], []).

%% @doc Keeps a version of a range for its owner. Refused: `disk_full', what {@link cluster_hint_queue:keep/4} refuses,
%% above all `hints_full'.
-spec keep(Owner :: cluster_ring:place(), cluster_ring:range(), Key :: binary(), antientropy:version()) ->
    {ok, Number :: pos_integer()} | antientropy:refused().
keep(Owner, Range, Key, Version) ->
    gen_server:call(?MODULE, {keep, {Owner, Range}, {Key, Version}}, infinity).

%% @doc Confirms hints that {@link pending/4} returned, once their owner has them on its disk. Refused: `disk_full'.
%%
%% A number from before a checkpoint names no hint: the hint has a new number, and is delivered again.
-spec confirm(Owner :: cluster_ring:place(), cluster_ring:range(), [cluster_hint_queue:outcome()]) ->
    ok | {error, disk_full}.
confirm(Owner, Range, Outcomes) ->
    gen_server:call(?MODULE, {confirm, {Owner, Range}, Outcomes}, infinity).

%% @doc Returns the first pending hints for an owner and a range after a number, at most `Most'.
-spec pending(Owner :: cluster_ring:place(), cluster_ring:range(), After, Most) -> [antientropy_hints:hint()] when
    After :: non_neg_integer(), Most :: pos_integer().
pending(Owner, Range, After, Most) ->
    gen_server:call(?MODULE, {pending, {Owner, Range}, After, Most}, infinity).

%% @doc Returns the owners and ranges for which hints are pending.
-spec waiting() -> [name()].
waiting() ->
    gen_server:call(?MODULE, waiting, infinity).

%% @doc Returns the counts of pending hints and of their bytes, and of hints that were delivered since the start.
-spec count() -> cluster_hint_queue:counts().
count() ->
    gen_server:call(?MODULE, count, infinity).

%% @private
init([]) ->
    Life = cluster_life:number(),
    case load(Life) of
        {ok, State} ->
            {ok, State};
        {damaged, Why} ->
            %% (The supervisor waits for this process, and the process of the life may wait for the supervisor.)
            _ = spawn(cluster_life, lost, [Life, Why]),
            {stop, {shutdown, lost}}
    end.

load(Life) ->
    Apply = fun(Record, Queues) -> apply_again(Record, Life, Queues) end,
    case cluster_log:open(cluster_folder:hints(), cluster_folder:owner(Life, hints), fun load_checkpoint/1, Apply) of
        {ok, Log, Queues} -> {ok, #state{life = Life, queues = Queues, log = Log}};
        Damaged -> Damaged
    end.

load_checkpoint(none) ->
    #{};
load_checkpoint(File) ->
    {ok, Saved} = file:read_file(File),
    maps:map(fun load_queue/2, binary_to_term(Saved)).

load_queue({Owner, _}, {First, Kept}) ->
    lists:foldl(fun keep_again/2, cluster_hint_queue:new(Owner, First), Kept).

%% Repeats the change of a record. Hints are numbered from the queue's first number, so they get the same numbers as the
%% first time.
apply_again({keep, Name, Kept}, Life, Queues) ->
    Queues#{Name => keep_again(Kept, queue(Name, Life, Queues))};
apply_again({confirm, Name, Outcome}, _, Queues) ->
    case Queues of
        #{Name := Queue} -> Queues#{Name := repeated(cluster_hint_queue:confirm(Queue, Outcome))};
        _ -> cluster_manifest:damaged("a record is refused")
    end.

keep_again({Key, Version}, Queue) ->
    case cluster_hint_queue:keep(Queue, Key, Version, infinity) of
        {ok, _, Kept} -> Kept;
        {error, _} -> cluster_manifest:damaged("a record is refused")
    end.

repeated({ok, Queue}) -> Queue;
repeated({error, _}) -> cluster_manifest:damaged("a record is refused").

%% Returns the queue of an owner and a range. The first hint of a life has a number that no earlier life used.
queue({Owner, _} = Name, Life, Queues) ->
    case Queues of
        #{Name := Queue} -> Queue;
        _ -> cluster_hint_queue:new(Owner, cluster_lives:incarnation(Life) bsl 40)
    end.

%% @private
handle_call(Request, From, State) ->
    wait(with_answer(Request, From, cluster_space:is_full(), State)).

%% @private
handle_cast(Message, State) ->
    ok = cluster_stray:message(?MODULE, Message),
    wait(State).

%% @private
handle_info(timeout, State) ->
    {noreply, commit(State)};
handle_info(Message, State) ->
    ok = cluster_stray:message(?MODULE, Message),
    wait(State).

%% @private
%% @doc Hides the state and the last message: they have values of clients.
format_status(Status) ->
    maps:map(fun(Key, Term) -> case Key of state -> hidden; message -> hidden; _ -> Term end end, Status).

%% ---- answers

%% Makes the answer to a request. While the disk is full, nothing may change.
with_answer(Request, From, IsFull, State) ->
    {Answer, #state{waiting = Waiting} = Next} =
        case IsFull andalso is_change(Request) of
            true -> {{error, disk_full}, State};
            false -> answer(Request, State)
        end,
    Next#state{waiting = [{From, Request, Answer} | Waiting]}.

is_change({keep, _, _}) -> true;
is_change({confirm, _, _}) -> true;
is_change(_) -> false.

answer({keep, Name, {Key, Version} = Kept}, #state{life = Life, queues = Queues, records = Records} = State) ->
    case cluster_hint_queue:keep(queue(Name, Life, Queues), Key, Version, cluster_settings:hint_bytes()) of
        {ok, Number, Queue} ->
            {{ok, Number}, State#state{queues = Queues#{Name => Queue}, records = [{keep, Name, Kept} | Records]}};
        {error, Refused} ->
            {{error, Refused}, refused(Refused, Name, State)}
    end;
answer({confirm, Name, Outcomes}, State) ->
    {ok, lists:foldl(fun(Outcome, Before) -> confirmed(Name, Outcome, Before) end, State, Outcomes)};
answer({pending, Name, After, Most}, #state{queues = Queues} = State) ->
    {[Hint || #{Name := Queue} <- [Queues], Hint <- cluster_hint_queue:pending(Queue, After, Most)], State};
answer(waiting, #state{queues = Queues} = State) ->
    {[Name || {Name, Queue} <- maps:to_list(Queues), pending_in(Queue) > 0], State};
answer(count, #state{delivered = Before} = State) ->
    #{delivered := Delivered} = Counts = counts(State),
    {Counts#{delivered := Before + Delivered}, State};
answer(Request, State) ->
    {cluster_stray:call(?MODULE, Request), State}.

%% Refuses a hint. A full queue is logged once, until it has delivered a hint.
refused(hints_full, {Owner, Range} = Name, #state{full = Full} = State) ->
    ok = cluster_metrics:count(hints_refused, []),
    lists:member(Name, Full) orelse cluster_event:note(hints_refused, [{owner, Owner}, {range, Range}]),
    State#state{full = lists:usort([Name | Full])};
refused(_, _, State) ->
    State.

confirmed(Name, Outcome, #state{queues = Queues, full = Full} = State) ->
    case Queues of
        #{Name := Queue} ->
            case cluster_hint_queue:confirm(Queue, Outcome) of
                {ok, Next} ->
                    Records = [{confirm, Name, Outcome} | State#state.records],
                    State#state{queues = Queues#{Name := Next}, records = Records, full = Full -- [Name]};
                {error, unknown_hint} ->
                    State
            end;
        _ ->
            State
    end.

pending_in(Queue) ->
    maps:get(pending, cluster_hint_queue:counts(Queue)).

%% Returns the sums over all queues.
counts(#state{queues = Queues}) ->
    Add = fun(_, Queue, Sum) -> maps:merge_with(fun(_, A, B) -> A + B end, Sum, cluster_hint_queue:counts(Queue)) end,
    maps:fold(Add, #{pending => 0, delivered => 0, bytes => 0}, Queues).

%% ---- the log

wait(#state{records = []} = State) ->
    {noreply, answer_all(State)};
wait(#state{waiting = Waiting} = State) when length(Waiting) >= ?MOST_WAITING ->
    {noreply, commit(State)};
wait(State) ->
    {noreply, State, 0}.

%% Logs all records, syncs the log once, and sends all answers.
commit(#state{log = Log, records = Records} = State) ->
    case cluster_log:write(Log, lists:reverse(Records)) of
        {ok, Written} -> checkpoint_if_due(answer_all(State#state{log = Written, records = []}));
        {full, Same} -> refuse_all(State#state{log = Same})
    end.

answer_all(#state{waiting = Waiting} = State) ->
    [gen_server:reply(From, Answer) || {From, _, Answer} <- lists:reverse(Waiting)],
    State#state{waiting = []}.

%% Reloads the hints from the disk, since it is full, and answers all waiting calls from them.
refuse_all(#state{waiting = Waiting} = State) ->
    Again = fun({From, Request, _}, Before) -> with_answer(Request, From, true, Before) end,
    answer_all(lists:foldr(Again, reloaded(State), Waiting)).

reloaded(#state{life = Life, queues = Queues, log = Log, delivered = Delivered}) ->
    ok = cluster_space:full(),
    ok = cluster_log:close(Log),
    ok = lists:foreach(fun cluster_hint_queue:close/1, maps:values(Queues)),
    case load(Life) of
        {ok, Loaded} ->
            Loaded#state{delivered = Delivered};
        {damaged, Why} ->
            ok = cluster_life:lost(Life, Why),
            timer:sleep(infinity)
    end.

%% ---- checkpoints

checkpoint_if_due(State) ->
    #{pending := Pending, delivered := Delivered} = counts(State),
    case Delivered >= max(?LEAST_DELIVERED, Pending) andalso not cluster_space:is_full() of
        true -> checkpoint(Delivered, State);
        false -> State
    end.

%% Drops the delivered hints. A checkpoint gets the pending hints of each queue, and the number of the first one, which
%% follows the last number that was used. If the disk has no space for it, the hints keep their numbers.
checkpoint(Delivered, #state{queues = Queues, log = Log, delivered = Before} = State) ->
    Kept = maps:map(fun(_, Queue) -> cluster_hint_queue:kept(Queue) end, Queues),
    case save(cluster_log:begin_file(Log), term_to_binary(Kept)) of
        {ok, Next} ->
            Renewed = maps:map(fun(_, Queue) -> cluster_hint_queue:renewed(Queue) end, Queues),
            State#state{log = Next, queues = Renewed, delivered = Before + Delivered};
        {full, Next} ->
            reloaded(State#state{log = Next})
    end.

save({ok, Log}, Saved) ->
    case cluster_log:save(cluster_log:checkpoint(Log), fun(Device) -> file:write(Device, Saved) end) of
        {ok, Seal} -> cluster_log:adopt(Log, Seal);
        full -> {full, Log}
    end;
save(Full, _) ->
    Full.
