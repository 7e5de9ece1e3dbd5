%% Handles that nobody closed are freed, and results don't leak.
-module(memory_tests).

-include_lib("eunit/include/eunit.hrl").

-import(support, [replica/0, live/2]).

-define(MIB, (1 bsl 20)).
-define(VALUE, binary:copy(<<"v">>, 65_536)).

replicas_and_snapshots_test_() ->
    freed(4 * ?MIB, fun() ->
        Replica = replica(),
        [{ok, _} = antientropy:put(Replica, 1, <<Key>>, ?VALUE) || Key <- lists:seq(1, 64)],
        {ok, Snapshot} = antientropy:snapshot(Replica),
        {ok, Shared} = antientropy_snapshot:share(Snapshot),
        {ok, _} = antientropy_snapshot:root(Shared)
    end).

%% An exchange keeps its replica: both are freed.
exchanges_test_() ->
    {ok, Snapshot} = antientropy:snapshot(support:fill(replica(), 1)),
    {ok, Offer} = antientropy_snapshot:offer(Snapshot, 1),
    freed(4 * ?MIB, fun() ->
        Replica = replica(),
        [{ok, _} = antientropy:put(Replica, 1, <<Key>>, ?VALUE) || Key <- lists:seq(1, 64)],
        {ok, Exchange} = antientropy:exchange(Replica, 1, Offer, #{}),
        {ok, [_]} = antientropy_exchange:asks(Exchange)
    end).

%% A renewal frees the old range, and a refused one the new range. A renewal that nobody closed is freed, too.
renewals_test_() ->
    Replica = replica(),
    [{ok, _} = antientropy:put(Replica, 1, <<Key>>, ?VALUE) || Key <- lists:seq(1, 64)],
    freed(65_536, fun() ->
        {ok, Versions} = antientropy:get(Replica, <<1>>),
        {ok, Context} = antientropy:merge([Clock || #{clock := Clock} <- Versions]),
        {ok, _} = antientropy:put(Replica, 1, <<1>>, ?VALUE, Context),
        ok = antientropy:renew_in_place(Replica, 10_000),
        {error, journal_full} = antientropy:renew_in_place(Replica, 10),
        {ok, _} = antientropy:renewal(Replica, 10_000)
    end).

closed_replicas_test_() ->
    freed(4 * ?MIB, fun() ->
        Replica = replica(),
        [{ok, _} = antientropy:put(Replica, 1, <<Key>>, ?VALUE) || Key <- lists:seq(1, 64)],
        ok = antientropy:close(Replica)
    end).

hints_test_() ->
    freed(65_536, fun() ->
        {ok, Hints} = antientropy_hints:new(),
        {ok, _} = antientropy_hints:keep(Hints, 1, <<"key">>, live(#{1 => 1}, ?VALUE)),
        {ok, _} = antientropy_hints:hint(Hints, 1)
    end).

slots_test_() ->
    freed(20_480, fun() ->
        {ok, Slots} = antientropy_slots:new(1, 4, 1),
        ok = antientropy_slots:lend(Slots)
    end).

%% Processes that wait in line. Half of them are killed there, and one that has its turn.
waiters_test_() ->
    Replica = replica(),
    freed(131_072, fun() ->
        Holder = support:hold(Replica, change),
        Waiting = [support:async(fun() -> antientropy:count(Replica) end) || _ <- lists:seq(1, 256)],
        {Killed, Called} = lists:split(128, [support:in_line(Each) || Each <- Waiting]),
        [support:kill(Each) || Each <- [Holder | Killed]],
        [{ok, _} = support:await(Each) || Each <- Called]
    end).

%% Results and refusals of one replica.
results_test_() ->
    Replica = replica(),
    {ok, _} = antientropy:put(Replica, 1, <<"k">>, ?VALUE),
    {ok, Snapshot} = antientropy:snapshot(Replica),
    {ok, #{leaf := Leaf}} = antientropy:place(2, 0, <<"k">>),
    freed(65_536, fun() ->
        {ok, [_]} = antientropy:get(Replica, <<"k">>),
        {ok, _} = antientropy:value(Replica, <<"k">>, 0),
        {ok, _} = antientropy:row(Replica, <<"k">>),
        {ok, _} = antientropy:entry(Replica, 0),
        {ok, _} = antientropy:packed_entries(Replica, 0),
        {ok, _} = antientropy_snapshot:rows(Snapshot, Leaf),
        {ok, _} = antientropy_snapshot:row(Snapshot, <<"k">>),
        {ok, _} = antientropy_snapshot:serve(Snapshot, 1, <<2, 1:32, 3, Leaf:16>>)
    end).

%% Clocks that don't fit on the stack, refused and of wrong types. Longer ones go to a dirty scheduler, for which a call
%% waits if the machine is busy.
long_clocks_test_() ->
    Replica = replica(),
    Pairs = [{Node, 1} || Node <- lists:seq(1, 1000)],
    Version = live(Pairs, <<>>),
    Wrong = live(Pairs ++ [none], <<>>),
    {ok, Hints} = antientropy_hints:new(),
    freed(16_000, fun() ->
        {error, clock_full} = antientropy:put(Replica, 1, <<"k">>, <<>>, Pairs),
        {error, clock_full} = antientropy:accept(Replica, <<"k">>, Version),
        {error, clock_full} = antientropy_hints:keep(Hints, 1, <<"k">>, Version),
        {error, clock_full} = antientropy:compare(Pairs, Pairs),
        {error, clock_full} = antientropy:merge([Pairs]),
        support:badarg(fun() -> antientropy:put(Replica, 1, <<"k">>, <<>>, Pairs ++ [none]) end),
        support:badarg(fun() -> antientropy:accept(Replica, <<"k">>, Wrong) end),
        support:badarg(fun() -> antientropy:compare(Pairs, none) end)
    end).

%% Handles that are made and dropped, and made and closed, as often as MEMORY_ROUNDS says: 10,000 times, or 3,000 in the
%% gate. Then the process has at most a tenth more than after the first thousand.
many_dropped_test_() ->
    many(fun() ->
        {Replica, Snapshot, Exchange} = make_handles(),
        {ok, [_]} = antientropy_exchange:asks(Exchange),
        {ok, _} = antientropy:renewal(Replica, 100),
        {ok, _} = antientropy_snapshot:root(Snapshot)
    end).

many_closed_test_() ->
    many(fun() ->
        {Replica, Snapshot, Exchange} = make_handles(),
        {ok, Renewal} = antientropy:renewal(Replica, 100),
        ok = antientropy_renewal:close(Renewal),
        ok = antientropy_exchange:close(Exchange),
        ok = antientropy_snapshot:close(Snapshot),
        ok = antientropy:close(Replica)
    end).

%% A replica of 20 keys, its snapshot, and an exchange. In format 1 few nodes are hashed.
make_handles() ->
    Replica = support:fill(support:replica(#{format => 1, limit => 10_000}), 20),
    {ok, Snapshot} = antientropy:snapshot(Replica),
    {ok, Offer} = antientropy_snapshot:offer(Snapshot, 1),
    {ok, _} = antientropy:put(Replica, 1, <<"later">>, binary:copy(<<"v">>, 1000)),
    {ok, Exchange} = antientropy:exchange(Replica, 1, Offer, #{}),
    {Replica, Snapshot, Exchange}.

many(Call) ->
    {timeout, 1200, fun() ->
        Rounds = list_to_integer(os:getenv("MEMORY_ROUNDS", "3000")),
        [run(Call) || _ <- lists:seq(1, 1000)],
        Resident = resident(),
        [run(Call) || _ <- lists:seq(1001, Rounds)],
        ?assert(resident() * 10 =< Resident * 11)
    end}.

%% Makes calls again and again, in processes that end. If `Bytes' were lost each time, that would be 64 MiB. Half of
%% that number of calls before them is for the allocators. On a busy machine it takes minutes.
freed(Bytes, Call) ->
    {timeout, 600, fun() ->
        Count = 64 * ?MIB div Bytes,
        [run(Call) || _ <- lists:seq(1, Count div 2)],
        Resident = resident(),
        Allocated = erlang:memory(total),
        [run(Call) || _ <- lists:seq(1, Count)],
        ?assert(resident() < Resident + 32 * ?MIB),
        ?assert(erlang:memory(total) < Allocated + 32 * ?MIB)
    end}.

run(Call) ->
    {Process, Monitor} = spawn_monitor(Call),
    receive
        {'DOWN', Monitor, process, Process, Reason} -> ?assertEqual(normal, Reason)
    end.

%% Returns the memory of the process in bytes: pages have 4,096.
resident() ->
    {ok, Text} = file:read_file("/proc/self/statm"),
    [_, Pages | _] = binary:split(Text, <<" ">>, [global]),
    4096 * binary_to_integer(Pages).
