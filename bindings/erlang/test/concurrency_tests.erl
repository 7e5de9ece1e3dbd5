%% Several processes with one replica.
-module(concurrency_tests).

-include_lib("eunit/include/eunit.hrl").

-import(support, [replica/0, reach/2, async/1, await/1, is_over/1, hold/2, release/1, in_line/1]).

-define(WRITERS, 4).
-define(PUTS, 500).
-define(LARGE_VALUE, binary:copy(<<"v">>, 65_536)).

processes_share_a_replica_test_() ->
    {timeout, 60, fun() ->
        Replica = replica(),
        Copy = replica(),
        Writers = [spawn_monitor(fun() -> write(Replica, Node) end) || Node <- lists:seq(1, ?WRITERS)],
        sync_while(Writers, Copy, Replica),
        support:sync(Copy, Replica),
        ?assertMatch({ok, #{entries := ?WRITERS * ?PUTS}}, antientropy:count(Replica)),
        ?assertEqual(antientropy:root(Replica), antientropy:root(Copy))
    end}.

%% Puts keys at a node, and reads each.
write(Replica, Node) ->
    [
        begin
            Key = <<Node, Number:16>>,
            {ok, _} = antientropy:put(Replica, Node, Key, Key),
            {ok, [#{value := Key}]} = antientropy:get(Replica, Key)
        end
     || Number <- lists:seq(1, ?PUTS)
    ].

%% Syncs a copy until the writers have ended.
sync_while([], _, _) ->
    ok;
sync_while([{Writer, Monitor} | Writers], Copy, Replica) ->
    ?assertMatch(#{report := finished}, support:sync(Copy, Replica)),
    receive
        {'DOWN', Monitor, process, Writer, Reason} ->
            ?assertEqual(normal, Reason),
            sync_while(Writers, Copy, Replica)
    after 0 -> sync_while([{Writer, Monitor} | Writers], Copy, Replica)
    end.

a_process_serves_a_snapshot_test() ->
    Replica = replica(),
    Copy = replica(),
    write(Replica, 1),
    {ok, Snapshot} = antientropy:snapshot(Replica),
    {ok, Offer} = antientropy_snapshot:offer(Snapshot, 1),
    Syncing = async(fun() -> antientropy:sync(Copy, 1, Offer, reach(Snapshot, 1)) end),
    write(Replica, 2),
    ?assertMatch({ok, #{report := finished, accepted := ?PUTS}}, await(Syncing)),
    ?assertEqual(antientropy_snapshot:root(Snapshot), antientropy:root(Copy)).

%% Processes read a replica at once while another one puts.
processes_read_a_replica_test_() ->
    {timeout, 60, fun() ->
        Replica = replica(),
        Reading = [async(fun() -> read_until_all(Replica, 1) end) || _ <- lists:seq(1, ?WRITERS)],
        write(Replica, 1),
        [?assertEqual(?PUTS, await(Each)) || Each <- Reading]
    end}.

%% Reads the keys of a node again and again, until each has a version. Returns their number.
read_until_all(Replica, Node) ->
    case length([Number || Number <- lists:seq(1, ?PUTS), is_put(Replica, <<Node, Number:16>>)]) of
        ?PUTS -> ?PUTS;
        _ -> read_until_all(Replica, Node)
    end.

%% Reads a key, whose value is the key, by calls that must agree.
is_put(Replica, Key) ->
    case antientropy:get(Replica, Key) of
        {ok, [#{value := Key} = Version]} ->
            {ok, Version} = antientropy:read(Replica, Key, 0),
            {ok, 1} = antientropy:count_versions(Replica, Key),
            true;
        {ok, []} ->
            false
    end.

%% Processes read one handle of a snapshot at once, and each a handle of its own.
processes_read_a_snapshot_test() ->
    Replica = replica(),
    write(Replica, 1),
    {ok, Keys} = antientropy:keys(Replica),
    Rows = [antientropy:row(Replica, Key) || Key <- Keys],
    {ok, Snapshot} = antientropy:snapshot(Replica),
    Read = fun(Of) ->
        {ok, Listed} = antientropy_snapshot:keys(Of),
        {Listed, [antientropy_snapshot:row(Of, Key) || Key <- Listed]}
    end,
    ReadShared = fun() ->
        {ok, Shared} = antientropy_snapshot:share(Snapshot),
        Read(Shared)
    end,
    Reading = [async(Each) || _ <- lists:seq(1, ?WRITERS), Each <- [fun() -> Read(Snapshot) end, ReadShared]],
    write(Replica, 2),
    [?assertEqual({Keys, Rows}, await(Each)) || Each <- Reading].

%% A node with one normal scheduler.
one_scheduler_test_() ->
    {timeout, 120, {setup, fun setup/0, fun cleanup/1, {inorder, [
        {timeout, 60, Test}
     || Test <- [
            fun a_scheduler_is_not_blocked/0,
            fun long_texts_go_elsewhere/0,
            fun long_arguments_are_not_read/0,
            fun a_portion_is_hashed_outside_the_gate/0,
            fun large_handles_are_freed_elsewhere/0
        ]
    ]}}}.

setup() ->
    erlang:system_flag(schedulers_online, 1).

cleanup(Schedulers) ->
    erlang:system_flag(schedulers_online, Schedulers).

%% A process waits for the gate until another one, which has the gate, has run a thousand times on the only scheduler.
a_scheduler_is_not_blocked() ->
    Replica = replica(),
    Holder = hold(Replica, change),
    _ = spawn_link(fun() ->
        [erlang:yield() || _ <- lists:seq(1, 1000)],
        element(1, Holder) ! release
    end),
    ?assertMatch({ok, #{entries := 0}}, antientropy:count(Replica)),
    _ = await(Holder).

%% Calls with texts of 4 MiB let another process run meanwhile: it runs at least once.
long_texts_go_elsewhere() ->
    Replica = replica(),
    Copy = replica(),
    [{ok, _} = antientropy:put(Replica, Node, <<"great">>, ?LARGE_VALUE) || Node <- lists:seq(1, 64)],
    {ok, #{leaf := Leaf}} = antientropy:place(2, 0, <<"great">>),
    {ok, Snapshot} = antientropy:snapshot(Replica),
    {ok, Offer} = antientropy_snapshot:offer(Snapshot, 1),
    {ok, Exchange} = antientropy:exchange(Copy, 1, Offer, #{}),
    Answer = last_answer(Exchange, Snapshot),
    {ok, _} = elsewhere(fun() -> antientropy:get(Replica, <<"great">>) end),
    {ok, Row} = elsewhere(fun() -> antientropy:row(Replica, <<"great">>) end),
    {ok, #{next := 15}} = elsewhere(fun() -> antientropy:packed_entries(Replica, 0) end),
    {ok, Row} = elsewhere(fun() -> antientropy_snapshot:rows(Snapshot, Leaf) end),
    {ok, Row} = elsewhere(fun() -> antientropy_snapshot:row(Snapshot, <<"great">>) end),
    {ok, Answer} = elsewhere(fun() -> antientropy_snapshot:serve(Snapshot, 1, <<2, 1:32, 3, Leaf:16>>) end),
    {ok, #{accepted := 64}} = elsewhere(fun() -> antientropy_exchange:take(Exchange, Answer) end),
    {ok, #{known := 64}} = elsewhere(fun() -> antientropy:load_rows(Copy, Row) end).

%% Arguments that are too long for any call are refused before all of them is read: their last elements are wrong.
long_arguments_are_not_read() ->
    Replica = replica(),
    Value = lists:duplicate(1000, lists:duplicate(20_000, $v)) ++ [wrong],
    Pairs = [{Node, 1} || Node <- lists:seq(1, 2_000_000)] ++ [wrong],
    [
        ?assertEqual({error, Name}, Call())
     || {Name, Call} <- [
            {bad_value, fun() -> antientropy:put(Replica, 1, <<"k">>, Value) end},
            {bad_value, fun() -> antientropy:accept(Replica, <<"k">>, #{clock => #{1 => 1}, value => Value}) end},
            {bad_clock, fun() -> antientropy:put(Replica, 1, <<"k">>, <<>>, Pairs) end},
            {bad_clock, fun() -> antientropy:compare(#{}, Pairs) end}
        ]
    ].

elsewhere(Call) ->
    {Ticked, Result} = ticks(Call),
    ?assert(Ticked > 0),
    Result.

%% Takes all answers but the last one, of the leaf, and returns that.
last_answer(Exchange, Snapshot) ->
    {ok, [<<_:5/binary, Depth, _/binary>> = Ask]} = antientropy_exchange:asks(Exchange),
    {ok, Answer} = antientropy_snapshot:serve(Snapshot, 1, Ask),
    case Depth of
        3 ->
            Answer;
        _ ->
            {ok, #{verdict := taken}} = antientropy_exchange:take(Exchange, Answer),
            last_answer(Exchange, Snapshot)
    end.

%% Makes a call, and returns how often another process ran meanwhile, with the result.
ticks(Call) ->
    Ticks = counters:new(1, []),
    Ticker = spawn_link(fun() -> tick(Ticks) end),
    erlang:yield(),
    Before = counters:get(Ticks, 1),
    Result = Call(),
    After = counters:get(Ticks, 1),
    unlink(Ticker),
    exit(Ticker, kill),
    {After - Before, Result}.

tick(Ticks) ->
    counters:add(Ticks, 1, 1),
    erlang:yield(),
    tick(Ticks).

%% A portion ends with a leaf of some 50 MB, which takes long to hash. If it is hashed before a put, tries again.
a_portion_is_hashed_outside_the_gate() ->
    ?assert(lists:any(fun(_) -> is_put_while_hashing() end, lists:seq(1, 100))).

is_put_while_hashing() ->
    Replica = replica(),
    [{ok, _} = antientropy:put(Replica, Node, Key, ?LARGE_VALUE) || Key <- keys_of_a_leaf(), Node <- lists:seq(1, 64)],
    ok = antientropy:hold(Replica),
    Hashing = async(fun() -> antientropy:hash_moment(Replica, 4096) end),
    true = support:until(fun() -> is_running(Hashing) orelse is_over(Hashing) end),
    timer:sleep(1),
    {ok, _} = antientropy:put(Replica, 2, <<"other">>, <<>>),
    IsHashing = not is_over(Hashing),
    ?assertMatch({ok, Left} when Left > 0, await(Hashing)),
    ok = antientropy:close(Replica),
    IsHashing.

%% Returns true if a process runs. The only normal scheduler runs this one, so that is on a dirty scheduler.
is_running({Process, _}) ->
    process_info(Process, status) =:= {status, running}.

%% Returns some keys of one leaf.
keys_of_a_leaf() ->
    Leaf = antientropy:place(2, 0, support:key(1)),
    [Key || Number <- lists:seq(1, 50_000), Key <- [support:key(Number)], antientropy:place(2, 0, Key) =:= Leaf].

%% The thread of the NIF frees the large handles of a process that ends, which takes it more than a tenth of a
%% millisecond.
large_handles_are_freed_elsewhere() ->
    [
        begin
            Before = worker_nanos(),
            ok = await(async(fun() ->
                _ = Make(),
                ok
            end)),
            ?assert(support:until(fun() -> worker_nanos() - Before > 100_000 end))
        end
     || Make <- [fun large_replica/0, fun large_snapshot/0, fun large_hints/0]
    ].

%% Returns the processor time of the NIF's thread in nanoseconds.
worker_nanos() ->
    [Folder] = [
        filename:dirname(File)
     || File <- filelib:wildcard("/proc/self/task/*/comm"), {ok, <<"antientropy\n">>} =:= file:read_file(File)
    ],
    {ok, Times} = file:read_file(filename:join(Folder, "schedstat")),
    binary_to_integer(hd(binary:split(Times, <<" ">>))).

large_replica() ->
    support:fill(support:replica(#{limit => 100_000}), 30_000).

%% A snapshot that nothing shares.
large_snapshot() ->
    Replica = large_replica(),
    {ok, Snapshot} = antientropy:snapshot(Replica),
    ok = antientropy:close(Replica),
    Snapshot.

large_hints() ->
    {ok, Hints} = antientropy_hints:new(),
    Hint = support:live(#{1 => 1}, binary:copy(<<"v">>, 100)),
    [{ok, _} = antientropy_hints:keep(Hints, 1, support:key(Number), Hint) || Number <- lists:seq(1, 10_000)],
    Hints.
