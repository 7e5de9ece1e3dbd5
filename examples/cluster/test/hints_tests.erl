%% @doc Hints on their disk.
-module(hints_tests).

-include_lib("eunit/include/eunit.hrl").

%% The number of the first hint.
-define(FIRST, (1 bsl 40)).
-define(VERSION, #{clock => #{2 => 1}, value => <<"value">>}).

%% Pending hints are there after a restart, confirmed ones aren't.
restart_test_() ->
    room:test([], fun(_) ->
        start(),
        [{ok, _} = cluster_hints:keep(Owner, 0, <<"key">>, ?VERSION) || Owner <- [2, 3, 2]],
        [#{number := First}, #{number := Second}] = cluster_hints:pending(2, 0, 0, 10),
        ok = cluster_hints:confirm(2, 0, [{First, new}]),
        restart(),
        ?assertMatch([#{number := Second, value := <<"value">>}], cluster_hints:pending(2, 0, 0, 10)),
        ?assertMatch([_], cluster_hints:pending(3, 0, 0, 10))
    end).

%% Each owner and range has separate numbers, and a confirmation is for only one of them.
queues_test_() ->
    room:test([], fun(_) ->
        start(),
        Names = [{2, 0}, {2, 3}, {4, 3}],
        [?assertEqual({ok, ?FIRST}, cluster_hints:keep(Owner, Range, <<"key">>, ?VERSION)) || {Owner, Range} <- Names],
        ok = cluster_hints:confirm(2, 3, [{?FIRST, new}]),
        ?assertEqual([{2, 0}, {4, 3}], lists:sort(cluster_hints:waiting())),
        ok = cluster_hints:confirm(3, 3, [{?FIRST, new}]),
        restart(),
        ?assertEqual([{2, 0}, {4, 3}], lists:sort(cluster_hints:waiting())),
        ?assertEqual({ok, ?FIRST + 1}, cluster_hints:keep(2, 3, <<"key">>, ?VERSION))
    end).

%% A checkpoint gives hints new numbers, and no old number names another hint: a confirmation by it does nothing.
%% Numbers continue through checkpoints and restarts. In a life they begin at its incarnation times 2^40.
checkpoint_test_() ->
    room:test([], fun(Folder) ->
        start(),
        [{ok, _} = Kept || Kept <- keep_all(1010)],
        Hints = cluster_hints:pending(2, 0, 0, 1000),
        ok = cluster_hints:confirm(2, 0, [{Number, new} || #{number := Number} <- Hints]),
        ?assertMatch(#{pending := 10, delivered := 1000}, cluster_hints:count()),
        {ok, ?FIRST + 1020} = cluster_hints:keep(2, 0, key(1), ?VERSION),
        ok = cluster_hints:confirm(2, 0, [{?FIRST, new}, {?FIRST + 1000, new}]),
        [#{number := ?FIRST + 1010} | _] = Pending = cluster_hints:pending(2, 0, 0, 20),
        ?assertEqual(11, length(Pending)),
        ok = cluster_hints:confirm(2, 0, [{?FIRST + 1011, known}]),
        restart(),
        Left = [Hint || #{number := Number} = Hint <- Pending, Number =/= ?FIRST + 1011],
        ?assertEqual(Left, cluster_hints:pending(2, 0, 0, 20)),
        {ok, ?FIRST + 1021} = cluster_hints:keep(2, 0, key(1), ?VERSION),
        Names = lists:sort(filelib:wildcard("*", filename:join(Folder, "hints"))),
        ?assertEqual(["checkpoint.2", "log.2", "manifest", "synced"], Names)
    end).

%% A byte changed in a hint's value is damage, in the log and in the checkpoint.
damage_test_() ->
    room:test([], fun(Folder) ->
        start(),
        [{ok, _} = Kept || Kept <- keep_all(1010)],
        Pending = cluster_hints:pending(2, 0, 0, 1000),
        ok = cluster_hints:confirm(2, 0, [{Number, new} || #{number := Number} <- Pending]),
        {ok, _} = cluster_hints:keep(3, 0, key(1), ?VERSION),
        ok = room:kill(cluster_hints),
        ?assertEqual({whole, 1}, cluster_folder:state()),
        Files = [filename:join([Folder, "hints", Name]) || Name <- ["log.2", "checkpoint.2"]],
        [?assertMatch({damaged, _}, changed(File)) || File <- Files]
    end).

changed(File) ->
    {ok, Bytes} = file:read_file(File),
    ok = file:write_file(File, binary:replace(Bytes, <<"value">>, <<"valve">>)),
    State = cluster_folder:state(),
    ok = file:write_file(File, Bytes),
    State.

%% A full disk refuses hints and confirmations, and loses nothing.
no_room_test_() ->
    room:full_test([], fun(_) ->
        start(),
        {ok, First} = cluster_hints:keep(2, 0, <<"key">>, ?VERSION),
        Large = #{clock => #{2 => 1}, value => binary:copy(<<"v">>, 60000)},
        room:until(fun() -> cluster_hints:keep(3, 0, <<"key">>, Large) =:= {error, disk_full} end),
        ?assertEqual({error, disk_full}, cluster_hints:confirm(2, 0, [{First, new}])),
        ?assertMatch([#{number := First}], cluster_hints:pending(2, 0, 0, 10)),
        Before = cluster_hints:count(),
        restart(),
        ?assertEqual(Before, cluster_hints:count())
    end).

%% A queue takes more hints than a store of the library, 10,000. They are all there after a restart, in order.
many_test_() ->
    room:test([], fun(_) ->
        start(),
        [{ok, _} = Kept || Kept <- keep_all(10100)],
        restart(),
        Numbers = [Number || #{number := Number} <- cluster_hints:pending(2, 0, 0, 20000)],
        ?assertEqual(lists:seq(?FIRST, ?FIRST + 10099), Numbers),
        ok = cluster_hints:confirm(2, 0, [{?FIRST + 9999, new}, {?FIRST + 10000, new}]),
        ?assertMatch([#{number := ?FIRST + 10001} | _], cluster_hints:pending(2, 0, ?FIRST + 9998, 5))
    end).

%% A queue refuses hints beyond its limit in bytes, and takes them after a delivery. Other queues aren't affected.
full_test_() ->
    Bytes = erlang:external_size({key(1), #{2 => 1}, <<"value">>}),
    room:test([{hint_bytes, 3 * Bytes}], fun(_) ->
        start(),
        [{ok, _} = cluster_hints:keep(2, 0, key(Number), ?VERSION) || Number <- [1, 2, 3]],
        ?assertEqual({error, hints_full}, cluster_hints:keep(2, 0, key(4), ?VERSION)),
        ?assertMatch({ok, _}, cluster_hints:keep(2, 3, key(4), ?VERSION)),
        ok = cluster_hints:confirm(2, 0, [{?FIRST, new}]),
        restart(),
        ?assertMatch({ok, _}, cluster_hints:keep(2, 0, key(4), ?VERSION)),
        ?assertEqual({error, hints_full}, cluster_hints:keep(2, 0, key(5), ?VERSION)),
        ?assertEqual(4 * Bytes, maps:get(bytes, cluster_hints:count()))
    end).

%% Keeps hints, some hundred at once, and returns the outcomes.
keep_all(Count) ->
    Keep = fun(Number) -> cluster_hints:keep(2, 0, key(Number), ?VERSION) end,
    lists:append([
        room:all_at_once(Keep, lists:seq(First, min(First + 399, Count)))
     || First <- lists:seq(1, Count, 400)
    ]).

key(Number) ->
    <<"key ", (integer_to_binary(Number))/binary>>.

start() ->
    {ok, Pid} = cluster_hints:start_link(),
    true = unlink(Pid),
    ok.

restart() ->
    ok = room:kill(cluster_hints),
    start().
