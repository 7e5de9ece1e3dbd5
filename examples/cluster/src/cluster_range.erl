%% @doc A range that this node holds: its replica, its log and its checkpoint.
%%
%% Nothing leaves this process before it is on the disk. A call makes its answer, and if the journal has entries that
%% aren't in the log, the answer waits. When no other call waits in the mailbox, all these entries are logged, the log
%% is synced once, and all waiting answers are sent. This holds for reads and offers as well, and for the entries that a
%% sync, which another process runs, adds meanwhile.
%%
%% If the disk is full, the replica is thrown away, and loaded again from the disk, so that nothing unlogged is shown.
%% Calls that would change it are refused as `disk_full'.
%%
%% The range of a new life is *joining* until all other holders' versions are in it: until then its row isn't one of the
%% R that a read has seen. The note in its manifest says so.
-module(cluster_range).
-behaviour(gen_server).

-export([start_link/1, put/4, copies/2, copy/3, own/2, row/2, read/4, take_row/3, counts/1, sizes/1, dump/1]).
-export([is_joined/1, unchecked/1]).
-export([offer/2, serve/4, borrow/1, give_back/3]).
-export([init/1, handle_call/3, handle_cast/2, handle_info/2, format_status/1]).

-export_type([counts/0, sizes/0, row/0]).

%% Maximum number of answers that wait for one sync of the log.
-define(MOST_WAITING, 512).
%% Time after which a refused renewal is tried again.
-define(RENEW_AGAIN_MS, 1000).

-type counts() :: #{
    range := cluster_ring:range(),
    entries := non_neg_integer(),
    limit := pos_integer(),
    dirty := non_neg_integer(),
    sessions := non_neg_integer(),
    bytes := bytes(),
    joined := boolean(),
    root := binary() | null
}.
-type sizes() :: #{
    entries := non_neg_integer(),
    limit := pos_integer(),
    dirty := non_neg_integer(),
    sessions := non_neg_integer(),
    bytes := bytes(),
    queue := non_neg_integer()
}.
-type bytes() :: #{rows := non_neg_integer(), journal := non_neg_integer(), sessions := non_neg_integer()}.
%% (`entries' is the length of the journal, at most `limit'. The bytes are from {@link antientropy:bytes/1}.)
-type row() :: {Key :: binary(), [antientropy:version()]}.
-type request() :: tuple() | atom().

-record(state, {
    range :: cluster_ring:range(),
    life :: cluster_lives:life(),
    replica :: antientropy:replica(),
    log :: cluster_log:log(),
    %% The number of the first entry that isn't in the log. Renewals keep it.
    logged :: non_neg_integer(),
    %% Entries logged since the last checkpoint, and the process that now saves one.
    since_checkpoint :: non_neg_integer(),
    saver :: pid() | undefined,
    %% Entries of the journal after the last renewal, and the renewal in progress.
    held = 0 :: non_neg_integer(),
    renewal = none :: cluster_renewal:renewal(),
    waiting = [] :: [{gen_server:from(), request(), Answer :: term()}],
    offers = 0 :: non_neg_integer(),
    offered = #{} :: #{cluster_ring:place() => {Number :: pos_integer(), antientropy_snapshot:snapshot()}},
    %% Monitors of the processes that sync into the replica.
    borrowers = #{} :: #{reference() => pid()},
    %% Holders whose versions aren't all in the range of a new life, and holders whose versions this process hasn't all
    %% taken yet.
    lacking :: [cluster_ring:place()],
    unchecked :: [cluster_ring:place()]
}).

%% @doc Starts the process of a range, with the versions on its disk.
-spec start_link(cluster_ring:range()) -> {ok, pid()} | {error, term()}.
start_link(Range) ->
    gen_server:start_link({local, name(Range)}, ?MODULE, Range, []).

%% @doc Puts a version under this node's life, and returns it. Refused: `disk_full', `starting', what {@link
%% antientropy:put/5} refuses. (`journal_full': also a key that isn't held, if the range is nearly full.)
-spec put(cluster_ring:range(), Key :: binary(), antientropy:value(), antientropy:clock_like()) ->
    {ok, antientropy:version()} | antientropy:refused().
put(Range, Key, Value, Context) ->
    call(Range, {put, Key, Value, Context}).

%% @doc Accepts versions that a carrier kept, and returns an outcome for each. Refused: `disk_full', what {@link
%% antientropy:accept/3} refuses.
-spec copies(cluster_ring:range(), [{Key :: binary(), antientropy:version()}]) ->
    [{ok, new | known} | antientropy:refused()].
copies(Range, Copies) ->
    call(Range, {copies, Copies}).

%% @doc Accepts a version that its coordinator put. If it is known, or its clock belongs to another value, returns the
%% versions of its key, which show the coordinator what it has forgotten.
-spec copy(cluster_ring:range(), Key :: binary(), antientropy:version()) ->
    {ok, new | {known, [antientropy:version()]}} | antientropy:refused().
copy(Range, Key, Version) ->
    call(Range, {copy, Key, Version}).

%% @doc Returns the versions of a key, the greatest counter of this life for it, and this life.
-spec own(cluster_ring:range(), Key :: binary()) ->
    {ok, [antientropy:version()], Top :: non_neg_integer(), cluster_lives:life()}.
own(Range, Key) ->
    call(Range, {own, Key}).

%% @doc Returns the text of a key's row. Refused: `joining'.
-spec row(cluster_ring:range(), Key :: binary()) -> {ok, Row :: binary()} | antientropy:refused().
row(Range, Key) ->
    call(Range, {row, Key}).

%% @doc Accepts rows of a key that other holders returned, and returns the versions now held, and their row. A full disk
%% doesn't take the rows, but they are in the result. Refused: `down' (with this replica they are fewer than R).
-spec read(cluster_ring:range(), Key :: binary(), Rows :: [binary()], R :: pos_integer()) ->
    {ok, [antientropy:version()], Row :: binary()} | antientropy:refused().
read(Range, Key, Rows, R) ->
    call(Range, {read, Key, Rows, R}).

%% @doc Accepts a row of a key from another holder, and returns the row now held. Refused: `disk_full', what {@link
%% antientropy:load_rows/2} refuses.
-spec take_row(cluster_ring:range(), Key :: binary(), Row :: binary()) -> {ok, Row :: binary()} | {error, term()}.
take_row(Range, Key, Row) ->
    call(Range, {take_row, Key, Row}).

%% @doc Returns the other holders that may still show that this disk has lost something: not all their versions were
%% taken since the start.
-spec unchecked(cluster_ring:range()) -> [cluster_ring:place()].
unchecked(Range) ->
    persistent_term:get({?MODULE, unchecked, Range}, cluster_ring:partners(Range)).

%% @doc Returns true if the range counts in reads.
-spec is_joined(cluster_ring:range()) -> boolean().
is_joined(Range) ->
    persistent_term:get({?MODULE, Range}, false).

%% @doc Returns an offer of the current rows for a partner. They are kept until its next offer. The caller's process
%% makes the snapshot.
-spec offer(cluster_ring:range(), Partner :: cluster_ring:place()) -> {ok, Offer :: binary()}.
offer(Range, Partner) ->
    with_snapshot(Range, fun(Replica, Snapshot) -> {offer, Partner, Replica, Snapshot} end).

%% @doc Returns the answers to the first of a partner's asks for its last offer: as many as fit in a message, and at
%% least one. Returns none if the partner has another offer by now. The caller's process makes them.
-spec serve(cluster_ring:range(), Partner :: cluster_ring:place(), Number :: pos_integer(), Asks :: [binary()]) ->
    [{ok, Answer :: binary()} | antientropy:refused()].
serve(Range, Partner, Number, Asks) ->
    case call(Range, {offered, Partner}) of
        {Number, Snapshot} -> answers(Asks, fun(Ask) -> antientropy_snapshot:serve(Snapshot, Number, Ask) end, 0);
        _ -> []
    end.

answers([], _, _) ->
    [];
answers([Ask | Asks], Serve, Before) ->
    Answer = Serve(Ask),
    Bytes = Before + answer_bytes(Answer),
    case Before =:= 0 orelse Bytes =< cluster_wire:message_bytes() of
        true -> [Answer | answers(Asks, Serve, Bytes)];
        false -> []
    end.

answer_bytes({ok, Answer}) -> byte_size(Answer);
answer_bytes({error, _}) -> 0.

%% @doc Returns the replica, into which this process may sync until it gives it back or ends. Refused: `disk_full',
%% `busy' (a renewal is in progress, or waits for other borrowers).
-spec borrow(cluster_ring:range()) -> {ok, antientropy:replica()} | {error, busy | disk_full}.
borrow(Range) ->
    call(Range, borrow).

%% @doc Gives the replica back, and returns once everything accepted is on the disk. The last argument names the partner
%% if all its versions were taken.
-spec give_back(cluster_ring:range(), antientropy:replica(), {all_of, cluster_ring:place()} | some) -> ok.
give_back(Range, Replica, Taken) ->
    call(Range, {give_back, Replica, Taken}).

%% @doc Returns the counts of the range. The root is `null' if a node of the tree has no digest.
-spec counts(cluster_ring:range()) -> counts().
counts(Range) ->
    call(Range, counts).

%% @doc Returns the counts of the range that don't need its tree, and the number of calls that wait for it.
-spec sizes(cluster_ring:range()) -> sizes().
sizes(Range) ->
    call(Range, sizes).

%% @doc Returns all rows, and the root.
-spec dump(cluster_ring:range()) -> {Root :: binary(), [row()]}.
dump(Range) ->
    call(Range, dump).

%% Makes a snapshot during puts, and then a request with it. The answer waits until everything in the snapshot is in the
%% log. If the range has another replica by then, both are repeated, since entries of the previous one may be lost.
with_snapshot(Range, Request) ->
    Replica = call(Range, replica),
    {ok, Snapshot} = antientropy:snapshot(Replica),
    case call(Range, Request(Replica, Snapshot)) of
        other_replica ->
            ok = antientropy_snapshot:close(Snapshot),
            with_snapshot(Range, Request);
        Answer ->
            Answer
    end.

%% Calls a range, without a time limit: a disk may be slow, and a range that fails ends the call.
call(Range, Request) ->
    gen_server:call(name(Range), Request, infinity).

%% @private
init(Range) ->
    ok = persistent_term:put({?MODULE, Range}, false),
    ok = persistent_term:put({?MODULE, unchecked, Range}, cluster_ring:partners(Range)),
    Life = cluster_life:number(),
    case load(Range, Life) of
        {ok, State} ->
            {ok, join_if_complete(renew_if_due(State))};
        {damaged, Why} ->
            %% (The supervisor waits for this process, and the process of the life may wait for the supervisor.)
            _ = spawn(cluster_life, lost, [Life, Why]),
            {stop, {shutdown, lost}}
    end.

load(Range, Life) ->
    case cluster_replica:open(Range, Life) of
        {ok, Log, Replica, Terms} ->
            ok = note_saved(Range, cluster_log:saved(Log)),
            {ok, #state{
                range = Range,
                life = Life,
                replica = Replica,
                log = Log,
                logged = cluster_replica:entries(Replica),
                since_checkpoint = Terms,
                lacking = [Partner || Partner <- cluster_ring:partners(Range), cluster_log:note(Log) =:= joining],
                unchecked = cluster_ring:partners(Range)
            }};
        Damaged ->
            Damaged
    end.

%% @private
%% @doc Serves a call. A call for the replica doesn't wait for the log, since a handle shows nothing.
handle_call(replica, From, #state{replica = Replica} = State) ->
    ok = gen_server:reply(From, Replica),
    wait(State);
handle_call(Request, From, State) ->
    Next = with_room(State),
    wait(with_answer(Request, From, cluster_space:is_full(), Next)).

%% @private
handle_cast(Message, State) ->
    ok = cluster_stray:message(?MODULE, Message),
    wait(State).

%% @private
handle_info(timeout, State) ->
    {noreply, commit(State)};
handle_info({saved, Saver, Saved}, #state{saver = Saver} = State) ->
    wait(adopt(Saved, State#state{saver = undefined}));
handle_info({saved, _, _}, State) ->
    wait(State);
handle_info({renewal, _, _} = Message, State) ->
    wait(renewal_received(Message, State));
handle_info({'DOWN', _, process, Maker, _} = Message, #state{renewal = {making, Maker, _}} = State) ->
    wait(renewal_received(Message, State));
handle_info(renew_again, #state{renewal = later} = State) ->
    wait(State#state{renewal = none});
handle_info(renew_again, State) ->
    wait(State);
handle_info({'DOWN', Monitor, process, _, _}, State) ->
    wait(returned(Monitor, State));
handle_info(Message, State) ->
    ok = cluster_stray:message(?MODULE, Message),
    wait(State).

%% @private
%% @doc Hides the state and the last message: they have values of clients.
format_status(Status) ->
    maps:map(fun(Key, Term) -> case Key of state -> hidden; message -> hidden; _ -> Term end end, Status).

%% ---- answers

%% Makes the answer to a request. While the disk is full, nothing may change.
with_answer(Request, From, IsFull, State) ->
    {Answer, #state{waiting = Waiting} = Next} =
        case IsFull of
            true -> answer_unchanged(Request, From, State);
            false -> answer(Request, From, State)
        end,
    Next#state{waiting = [{From, Request, Answer} | Waiting]}.

answer_unchanged({put, _, _, _}, _, State) ->
    {{error, disk_full}, State};
answer_unchanged({copies, Copies}, _, State) ->
    {[{error, disk_full} || _ <- Copies], State};
answer_unchanged({copy, _, _}, _, State) ->
    {{error, disk_full}, State};
answer_unchanged({read, Key, Rows, R}, _, #state{range = Range, replica = Replica} = State) ->
    {read_enough(Rows, R, State, fun() -> cluster_replica:read_apart(Replica, Range, Key, Rows) end), State};
answer_unchanged({take_row, _, _}, _, State) ->
    {{error, disk_full}, State};
answer_unchanged(borrow, _, State) ->
    {{error, disk_full}, State};
answer_unchanged(Request, From, State) ->
    answer(Request, From, State).

answer({put, Key, Value, Context}, _, #state{replica = Replica, life = Life} = State) ->
    case {cluster_life:is_ready(), is_nearly_full(State) andalso antientropy:count_versions(Replica, Key)} of
        {true, {ok, 0}} -> {{error, journal_full}, State};
        {true, _} -> {cluster_replica:put(Replica, Life, Key, Value, Context), State};
        {false, _} -> {{error, starting}, State}
    end;
answer({copies, Copies}, _, #state{replica = Replica} = State) ->
    {[antientropy:accept(Replica, Key, Version) || {Key, Version} <- Copies], State};
answer({copy, Key, Version}, _, #state{replica = Replica} = State) ->
    {copied(Replica, Key, Version), State};
answer({own, Key}, _, #state{replica = Replica, life = Life} = State) ->
    {ok, Versions, Top} = cluster_replica:own(Replica, Life, Key),
    {{ok, Versions, Top, Life}, State};
answer({row, _}, _, #state{lacking = [_ | _]} = State) ->
    {{error, joining}, State};
answer({row, Key}, _, #state{replica = Replica} = State) ->
    {antientropy:row(Replica, Key), State};
answer({read, Key, Rows, R}, _, #state{replica = Replica} = State) ->
    {read_enough(Rows, R, State, fun() -> cluster_replica:read(Replica, Key, Rows) end), State};
answer({take_row, Key, Row}, _, #state{replica = Replica} = State) ->
    {taken_row(cluster_replica:read(Replica, Key, [Row])), State};
answer({offer, Partner, Replica, Snapshot}, _, #state{replica = Replica} = State) ->
    new_offer(Partner, Snapshot, State);
answer({offer, _, _, _}, _, State) ->
    {other_replica, State};
answer({logged, Replica, Snapshot}, _, #state{replica = Replica} = State) ->
    {{ok, Snapshot}, State};
answer({logged, _, _}, _, State) ->
    {other_replica, State};
answer({offered, Partner}, _, #state{offered = Offered} = State) ->
    {maps:get(Partner, Offered, none), State};
answer(borrow, {Borrower, _}, State) ->
    lend(Borrower, State);
answer({give_back, Replica, Taken}, {Borrower, _}, State) ->
    {ok, taken(Replica, Taken, returned(monitor_of(Borrower, State), State))};
answer(counts, _, #state{range = Range, replica = Replica, lacking = Lacking} = State) ->
    Counts = cluster_replica:sizes(Replica),
    {Counts#{range => Range, joined => Lacking =:= [], root => cluster_replica:root(Replica)}, State};
answer(sizes, _, #state{replica = Replica, waiting = Waiting} = State) ->
    {message_queue_len, Length} = process_info(self(), message_queue_len),
    {(cluster_replica:sizes(Replica))#{queue => length(Waiting) + Length}, State};
answer(dump, _, #state{replica = Replica} = State) ->
    {ok, Root} = antientropy:root(Replica),
    {ok, Keys} = antientropy:keys(Replica),
    {{Root, [{Key, element(2, antientropy:get(Replica, Key))} || Key <- Keys]}, State};
answer(Request, _, State) ->
    {cluster_stray:call(?MODULE, Request), State}.

%% Accepts a copy. The replica would take another value under a clock that it holds, as a concurrent version.
copied(Replica, Key, #{clock := Clock, value := Value} = Version) ->
    {ok, Versions} = antientropy:get(Replica, Key),
    case [Held || #{clock := Other, value := Held} <- Versions, Other =:= Clock, Held =/= Value] of
        [] -> with_versions(antientropy:accept(Replica, Key, Version), Versions);
        _ -> {ok, {known, Versions}}
    end.

with_versions({ok, known}, Versions) -> {ok, {known, Versions}};
with_versions(Accepted, _) -> Accepted.

%% Reads if there are R rows. The range counts as one of them unless it is joining, maybe since a new life began
%% meanwhile.
read_enough(Rows, R, #state{lacking = []}, Read) when length(Rows) + 1 >= R -> Read();
read_enough(Rows, R, _, Read) when length(Rows) >= R -> Read();
read_enough(_, _, _, _) -> {error, down}.

taken_row({ok, _, Row}) -> {ok, Row};
taken_row(Refused) -> Refused.

new_offer(Partner, Snapshot, #state{offers = Offers, offered = Offered} = State) ->
    Number = Offers + 1,
    ok = close_offered(Partner, Offered),
    Next = State#state{offers = Number, offered = Offered#{Partner => {Number, Snapshot}}},
    {antientropy_snapshot:offer(Snapshot, Number), Next}.

%% Closes the snapshot of a partner's last offer in another process, so that no call waits until its rows are freed.
close_offered(Partner, Offered) ->
    case Offered of
        #{Partner := {_, Snapshot}} ->
            _ = spawn(fun() -> ok = antientropy_snapshot:close(Snapshot) end),
            ok;
        _ ->
            ok
    end.

%% ---- the log

%% Sends the answers if everything is in the log. Otherwise they wait while calls are in the mailbox.
wait(#state{waiting = Waiting} = State) ->
    case is_logged(State) of
        true ->
            {noreply, answer_all(State)};
        false when length(Waiting) >= ?MOST_WAITING ->
            {noreply, commit(State)};
        false ->
            {noreply, State, 0}
    end.

is_logged(#state{replica = Replica, logged = Logged}) ->
    cluster_replica:entries(Replica) =:= Logged.

%% Logs all entries that aren't in the log, syncs it once, and sends all answers. If the entries show that the disk has
%% lost something, none is logged, and no answer is sent.
commit(#state{range = Range, replica = Replica, life = Life, logged = Logged} = State) ->
    {ok, Entries} = antientropy:entries(Replica, Logged),
    case cluster_replica:forgotten(Replica, Life, Entries) of
        false -> logged(log(Entries, State), length(Entries), State);
        true -> lost("range-" ++ integer_to_list(Range) ++ ": another place has a later version of this life", State)
    end.

log(Entries, #state{log = Log}) ->
    case cluster_lives:learn_from([Clock || #{clock := Clock} <- Entries]) of
        ok -> cluster_log:write(Log, [{Key, Clock, Value} || #{key := Key, clock := Clock, value := Value} <- Entries]);
        {error, disk_full} -> {full, Log}
    end.

logged({ok, Log}, Count, #state{logged = Logged, since_checkpoint = Since} = State) ->
    answer_all(State#state{log = Log, logged = Logged + Count, since_checkpoint = Since + Count});
logged({full, Log}, _, State) ->
    ok = cluster_space:full(),
    refuse_all(State#state{log = Log}).

%% Throws away the replica and everything made from it, and answers all waiting calls from the disk.
refuse_all(#state{range = Range, life = Life, log = Log, waiting = Waiting, offered = Offered} = State) ->
    ok = cluster_log:close(Log),
    ok = stop_saver(State),
    ok = cluster_renewal:drop(State#state.renewal),
    [ok = antientropy_snapshot:close(Snapshot) || {_, Snapshot} <- maps:values(Offered)],
    case load(Range, Life) of
        {ok, Loaded} ->
            #state{offers = Offers, borrowers = Borrowers} = State,
            Again = fun({From, Request, _}, Before) -> with_answer(Request, From, true, Before) end,
            answer_all(lists:foldr(Again, Loaded#state{offers = Offers, borrowers = Borrowers}, Waiting));
        {damaged, Why} ->
            lost(Why, State)
    end.

%% Stops the process that saves a checkpoint. A file that it has begun would be in the way of the next one.
stop_saver(#state{saver = undefined}) ->
    ok;
stop_saver(#state{saver = Saver}) ->
    Monitor = monitor(process, Saver),
    true = unlink(Saver),
    true = exit(Saver, kill),
    receive
        {'DOWN', Monitor, process, _, _} -> ok
    end.

%% Sends no answer, and waits for its end.
-spec lost(Why :: string(), #state{}) -> no_return().
lost(Why, #state{life = Life}) ->
    ok = cluster_life:lost(Life, Why),
    timer:sleep(infinity).

%% Sends the answers once everything in them is in the log.
answer_all(#state{waiting = Waiting} = State) ->
    [gen_server:reply(From, Answer) || {From, _, Answer} <- lists:reverse(Waiting)],
    join_if_complete(renew_if_due(renewed_if_made(checkpoint_if_due(State#state{waiting = []})))).

%% ---- checkpoints

checkpoint_if_due(#state{saver = undefined, since_checkpoint = Since} = State) ->
    case Since >= cluster_settings:checkpoint_entries() andalso not cluster_space:is_full() of
        true -> checkpoint(State);
        false -> State
    end;
checkpoint_if_due(State) ->
    State.

%% Begins a new file of the log, and saves a snapshot in another process. The snapshot has everything in the older
%% files, and maybe more, which a start finds again in the new file.
checkpoint(#state{range = Range, log = Log} = State) ->
    case cluster_log:begin_file(Log) of
        {ok, Next} ->
            Process = self(),
            Saver = spawn_link(fun() -> Process ! {saved, self(), save(Range, cluster_log:checkpoint(Next))} end),
            State#state{log = Next, since_checkpoint = 0, saver = Saver};
        {full, Next} ->
            ok = cluster_space:full(),
            State#state{log = Next}
    end.

save(Range, File) ->
    {ok, Snapshot} = with_snapshot(Range, fun(Replica, Snapshot) -> {logged, Replica, Snapshot} end),
    Saved = cluster_checkpoint:save(File, Snapshot),
    ok = antientropy_snapshot:close(Snapshot),
    Saved.

adopt({ok, Seal}, #state{range = Range, log = Log} = State) ->
    case cluster_log:adopt(Log, Seal) of
        {ok, Next} ->
            ok = note_saved(Range, cluster_log:saved(Next)),
            ok = cluster_event:note(checkpoint, [{range, Range}]),
            State#state{log = Next};
        {full, Next} ->
            ok = cluster_space:full(),
            State#state{log = Next}
    end;
adopt(full, State) ->
    ok = cluster_space:full(),
    State.

note_saved(_, none) -> ok;
note_saved(Range, Seconds) -> cluster_metrics:set(snapshot_saved, [{range, Range}], Seconds).

%% ---- syncs and renewals

lend(Borrower, #state{borrowers = Borrowers, replica = Replica} = State) ->
    IsWanted = is_renewal_due(State) andalso map_size(Borrowers) > 0,
    case IsWanted orelse cluster_renewal:is_in_progress(State#state.renewal) of
        true -> {{error, busy}, State};
        false -> {{ok, Replica}, State#state{borrowers = Borrowers#{monitor(process, Borrower) => Borrower}}}
    end.

%% Takes the replica back. A process that borrowed it before this one started has no monitor.
returned(none, State) ->
    State;
returned(Monitor, #state{borrowers = Borrowers} = State) ->
    true = demonitor(Monitor, [flush]),
    State#state{borrowers = maps:remove(Monitor, Borrowers)}.

monitor_of(Borrower, #state{borrowers = Borrowers}) ->
    hd([Monitor || {Monitor, Process} <- maps:to_list(Borrowers), Process =:= Borrower] ++ [none]).

%% Notes that all versions of a partner were taken, if they were taken into this replica.
taken(Replica, {all_of, Partner}, #state{replica = Replica, lacking = Lacking} = State) ->
    checked(Partner, State#state{lacking = lists:delete(Partner, Lacking)});
taken(_, _, State) ->
    State.

checked(Partner, #state{range = Range, unchecked = Unchecked} = State) ->
    case lists:member(Partner, Unchecked) of
        true ->
            Left = lists:delete(Partner, Unchecked),
            ok = persistent_term:put({?MODULE, unchecked, Range}, Left),
            State#state{unchecked = Left};
        false ->
            State
    end.

%% Joins once all versions of the other holders are in the log.
join_if_complete(#state{range = Range, log = Log, lacking = []} = State) ->
    case cluster_log:note(Log) =:= joined orelse cluster_space:is_full() orelse cluster_log:set_note(Log, joined) of
        true ->
            is_joined(Range) orelse persistent_term:put({?MODULE, Range}, true),
            State;
        {ok, Joined} ->
            join_if_complete(State#state{log = Joined});
        {full, _} ->
            ok = cluster_space:full(),
            State
    end;
join_if_complete(State) ->
    State.

%% Starts a renewal, unless a process syncs into the replica: its session would end.
renew_if_due(#state{renewal = none, borrowers = Borrowers, replica = Replica} = State) ->
    case map_size(Borrowers) =:= 0 andalso is_logged(State) andalso is_renewal_due(State) of
        true -> State#state{renewal = cluster_renewal:start(Replica)};
        false -> State
    end;
renew_if_due(State) ->
    State.

%% Puts a finished renewal in place once everything is in the log: nobody else changes the replica meanwhile.
renewed_if_made(#state{range = Range, replica = Replica, renewal = {made, _} = Made} = State) ->
    case is_logged(State) andalso cluster_renewal:finish(Made, Replica) of
        false ->
            State;
        {ok, Held} ->
            ok = cluster_event:note(renewal, [{range, Range}, {entries, Held}]),
            State#state{renewal = none, held = Held};
        {error, Cause} ->
            renewal_refused(Cause, State)
    end;
renewed_if_made(State) ->
    State.

renewal_received(Message, #state{renewal = Renewal} = State) ->
    with_renewal(cluster_renewal:received(Message, Renewal), State).

with_renewal({refused, Cause}, State) -> renewal_refused(Cause, State);
with_renewal(Renewal, State) -> State#state{renewal = Renewal}.

%% Logs a refused renewal. The range continues, and tries again later.
renewal_refused(Cause, #state{range = Range} = State) ->
    ok = cluster_event:note(renewal_refused, [{range, Range}, {cause, Cause}]),
    _ = erlang:send_after(?RENEW_AGAIN_MS, self(), renew_again),
    State#state{renewal = later}.

%% Returns true from nine tenths of the limit on, once half of the space that the last renewal left is used.
is_renewal_due(#state{replica = Replica, held = Held}) ->
    {ok, #{entries := Entries, first := First, limit := Limit}} = antientropy:count(Replica),
    Used = Entries - First,
    Used * 10 >= Limit * 9 andalso Used > Held andalso (Used - Held) * 2 >= Limit - Held.

%% Returns true from 95 percent on: the rest is for puts and deletes of held keys, and renewals free it again.
is_nearly_full(#state{held = Held}) ->
    Held * 20 >= cluster_settings:limit() * 19.

%% If the journal is full, logs and answers everything that waits, and waits for a renewal in progress.
with_room(State) ->
    case has_room(State) of
        true -> State;
        false -> with_renewal_awaited(all_logged(State))
    end.

%% Returns true if the journal has space. Keys that aren't held would fill it during a renewal, so its last twentieth
%% isn't used until the renewal ends.
has_room(#state{replica = Replica, renewal = Renewal}) ->
    {ok, #{entries := Entries, first := First, limit := Limit}} = antientropy:count(Replica),
    Used = Entries - First,
    Used * 20 < Limit * 19 orelse (Used < Limit andalso not cluster_renewal:is_in_progress(Renewal)).

all_logged(State) ->
    case is_logged(State) of
        true -> State;
        false -> commit(State)
    end.

with_renewal_awaited(#state{renewal = Renewal} = State) ->
    renewed_if_made(with_renewal(cluster_renewal:awaited(Renewal), State)).

name(Range) ->
    list_to_atom("cluster_range_" ++ integer_to_list(Range)).
