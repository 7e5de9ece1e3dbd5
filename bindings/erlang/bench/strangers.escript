#!/usr/bin/env escript
%% Measures the reads of a file by a stranger: a process that doesn't use a replica which many others use.
%%
%%     strangers.escript KEYS CALLERS gets|puts|snapshots nothing|rehash|renewal
%%
%% The callers make calls without pause, and one more process makes a long call. Prints its milliseconds, and of the
%% stranger's file:read_file meanwhile the median, the 99th percentile and the maximum in microseconds, and their
%% number; then the same of the callers' calls. The goal is a 99th percentile of 20,000 with 50 callers, on a quiet
%% machine of 4 processors. ERL_LIBS is the folder that has the application.
-mode(compile).

main([KeysWord, CallersWord, Call, Long]) ->
    Keys = list_to_integer(KeysWord),
    {ok, Replica} = antientropy:new(#{limit => 1_000_000}),
    [{ok, _} = antientropy:put(Replica, 1, key(Number), <<Number:256>>) || Number <- lists:seq(1, Keys)],
    {ok, _} = antientropy:root(Replica),
    dirty(Long, Replica, Keys),
    Self = self(),
    Callers = [
        spawn_link(fun() -> Self ! {called, call(list_to_atom(Call), Replica, Keys, Node, 0, [])} end)
     || Node <- lists:seq(2, list_to_integer(CallersWord) + 1)
    ],
    Stranger = spawn_link(fun() -> Self ! {read, read([])} end),
    timer:sleep(300),
    {Micros, ok} = timer:tc(fun() -> long(Long, Replica) end),
    [Each ! stop || Each <- [Stranger | Callers]],
    Reads = receive {read, Times} -> Times end,
    Calls = lists:append([receive {called, Each} -> Each end || _ <- Callers]),
    io:format("~s beside ~s ~s of ~s keys: ~b ms; a stranger's read ~w us; a call ~w us~n", [
        Long, CallersWord, Call, KeysWord, Micros div 1000, figures(Reads), figures(Calls)
    ]),
    halt().

key(Number) ->
    <<"key ", Number:32>>.

%% Puts each tenth key again before a rehash.
dirty("rehash", Replica, Keys) ->
    [{ok, _} = antientropy:put(Replica, 1, key(Number), <<>>, [{1, 1}]) || Number <- lists:seq(1, Keys, 10)],
    ok;
dirty(_, _, _) ->
    ok.

long("nothing", _) -> timer:sleep(1000);
long("rehash", Replica) -> antientropy:rehash(Replica);
long("renewal", Replica) -> antientropy:renew_in_place(Replica).

%% Makes calls until it is stopped, and returns the microseconds of each sixteenth.
call(Call, Replica, Keys, Node, Count, Times) ->
    receive
        stop -> Times
    after 0 ->
        Begin = now_us(),
        make(Call, Replica, key(1 + Count * 7919 rem Keys), Node, Count),
        Now = case Count rem 16 of 0 -> [now_us() - Begin | Times]; _ -> Times end,
        call(Call, Replica, Keys, Node, Count + 1, Now)
    end.

make(gets, Replica, Key, _, _) ->
    {ok, [_]} = antientropy:get(Replica, Key);
make(puts, Replica, _, Node, Count) ->
    case antientropy:put(Replica, Node, <<Node, (Count rem 100)>>, <<>>, [{Node, Count div 100} || Count >= 100]) of
        {ok, _} -> ok;
        {error, journal_full} -> timer:sleep(1)
    end;
make(snapshots, Replica, _, _, _) ->
    {ok, Snapshot} = antientropy:snapshot(Replica),
    ok = antientropy_snapshot:close(Snapshot).

%% Reads a file again and again until it is stopped, and returns the microseconds of each read.
read(Times) ->
    receive
        stop -> Times
    after 1 ->
        Begin = now_us(),
        {ok, _} = file:read_file("/proc/self/statm"),
        read([now_us() - Begin | Times])
    end.

now_us() ->
    erlang:monotonic_time(microsecond).

%% Median, 99th percentile, maximum and number.
figures(Times) ->
    Sorted = lists:sort(Times),
    At = fun(Part) -> lists:nth(max(1, ceil(length(Sorted) * Part)), Sorted) end,
    {At(0.5), At(0.99), At(1), length(Sorted)}.
