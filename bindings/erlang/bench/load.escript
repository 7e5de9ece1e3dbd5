#!/usr/bin/env escript
%% Puts at a pace beside a process that makes snapshots, as bench/load.c does, whose words these are:
%%
%%     load.escript KEYS KEY_BYTES VALUE_BYTES FORMAT PUTS_PER_S nothing|moments|rounds
%%
%% `moments' makes snapshots by antientropy:snapshot/1. `rounds' hashes some nodes, again and again, until each has a
%% digest. The line has the figures of bench/load.c. ERL_LIBS is the folder that has the application.
-mode(compile).

-define(SECONDS, 6).
-define(PERIOD, 500_000).
-define(MOST, 16).

main([Keys, KeyBytes, ValueBytes, Format, Pace, Worker]) ->
    Shape = {list_to_integer(Keys), list_to_integer(KeyBytes), list_to_integer(ValueBytes)},
    run(Shape, list_to_integer(Format), list_to_integer(Pace), list_to_atom(Worker)).

run({Keys, _, _} = Shape, Format, Pace, Worker) ->
    {ok, Replica} = antientropy:new(#{format => Format, limit => 1_000_000}),
    Counters = atomics:new(Keys, []),
    [put(Replica, Counters, Shape, Number) || Number <- lists:seq(1, Keys)],
    {Alone, ok} = timer:tc(fun() -> antientropy:rehash(Replica) end),
    Self = self(),
    Maker = spawn_link(fun() -> Self ! {self(), make_snapshots(Worker, Replica, [])} end),
    Begin = now_us(),
    Puts = lists:sort(write(Replica, Counters, Shape, Pace, Begin)),
    Took = now_us() - Begin,
    Maker ! stop,
    Made = receive {Maker, Times} -> lists:sort(Times) end,
    io:format("~b ~b ~b ~b ~b ~b ~b~n", [
        Alone div 1000, length(Made), at(Made, 0.5) div 1000, at(Made, 1) div 1000,
        length(Puts) * 1_000_000 div Took, at(Puts, 0.9999), at(Puts, 1)
    ]).

now_us() ->
    erlang:monotonic_time(microsecond).

%% Rewrites keys at the pace, and returns how long each put took, with its wait for the replica's lock.
write(Replica, Counters, {Keys, _, _} = Shape, Pace, Begin) ->
    [
        begin
            wait_until(Begin + Number * 1_000_000 div Pace),
            Start = now_us(),
            put(Replica, Counters, Shape, rand:uniform(Keys)),
            now_us() - Start
        end
     || Number <- lists:seq(0, ?SECONDS * Pace - 1), now_us() - Begin < ?SECONDS * 1_000_000
    ].

%% Waits until a time: it sleeps while that is over two milliseconds away.
wait_until(Due) ->
    case Due - now_us() of
        Left when Left > 2000 -> timer:sleep(1), wait_until(Due);
        Left when Left > 0 -> erlang:yield(), wait_until(Due);
        _ -> ok
    end.

%% Puts a key with the context of its last put.
put(Replica, Counters, {_, KeyBytes, ValueBytes}, Number) ->
    Context = case atomics:get(Counters, Number) of 0 -> #{}; Before -> #{1 => Before} end,
    Hash = erlang:phash2(Number, 1 bsl 32),
    Key = <<Hash:32, Number:32, 0:(8 * (max(KeyBytes, 8) - 8))>>,
    {ok, _} = antientropy:put(Replica, 1, Key, <<Hash:(8 * ValueBytes)>>, Context),
    atomics:add(Counters, Number, 1).

%% Begins a snapshot each half second until it is stopped, and returns how long each took.
make_snapshots(Worker, Replica, Times) ->
    Begin = now_us(),
    Made = make_snapshot(Worker, Replica),
    Now = case Made of true -> [now_us() - Begin | Times]; false -> Times end,
    receive
        stop -> Now
    after max(0, Begin + ?PERIOD - now_us()) div 1000 ->
        make_snapshots(Worker, Replica, Now)
    end.

make_snapshot(nothing, _) ->
    false;
make_snapshot(moments, Replica) ->
    {ok, Snapshot} = antientropy:snapshot(Replica),
    ok = antientropy_snapshot:close(Snapshot),
    true;
make_snapshot(rounds, Replica) ->
    {ok, _} = antientropy:rehash_some(Replica, ?MOST),
    case antientropy:snapshot(Replica, #{rehash => false}) of
        {ok, Snapshot} -> ok = antientropy_snapshot:close(Snapshot), true;
        {error, dirty} -> receive stop -> self() ! stop, false after 0 -> make_snapshot(rounds, Replica) end
    end.

%% The time at a part of the sorted times, or 0 if there are none.
at([], _) -> 0;
at(Times, Part) -> lists:nth(max(1, ceil(length(Times) * Part)), Times).
