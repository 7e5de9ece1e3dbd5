%% Moments: hashed in portions, and while another process puts without pause.
-module(moment_tests).

-include_lib("eunit/include/eunit.hrl").

-import(support, [replica/0, fill/2]).

%% Numbers of keys and of puts of a process: a journal has more entries.
-define(KEYS, 1000).
-define(MOST_PUTS, 900_000).

hold_and_hash_test() ->
    Replica = fill(replica(), 50),
    ok = antientropy:hold(Replica),
    {ok, _} = antientropy:put(Replica, 1, <<"later">>, <<>>),
    ?assertEqual({error, dirty}, antientropy:moment(Replica)),
    ?assertMatch({ok, #{front := 0, entries := 51}}, antientropy:count(Replica)),
    {ok, Left} = antientropy:hash_moment(Replica, 0),
    ?assertEqual({ok, Left - 7}, antientropy:hash_moment(Replica, 7)),
    ok = hash_all(Replica),
    ?assertMatch({ok, #{front := 50, entries := 51}}, antientropy:count(Replica)),
    {ok, Snapshot} = antientropy:moment(Replica),
    ?assertMatch({ok, #{entries := 50}}, antientropy_snapshot:info(Snapshot)),
    ok = antientropy:drop_moment(Replica),
    ?assertEqual({error, dirty}, antientropy:moment(Replica)),
    ?assertEqual({ok, 0}, antientropy:hash_moment(Replica, 7)),
    ?assertMatch({ok, #{front := 50}}, antientropy:count(Replica)),
    ?assertEqual(antientropy:root(fill(replica(), 50)), antientropy_snapshot:root(Snapshot)).

%% `front' doesn't change until the next moment is whole.
front_test() ->
    Replica = fill(replica(), 10),
    {ok, _} = antientropy:snapshot(Replica),
    {ok, _} = antientropy:put(Replica, 1, <<"later">>, <<>>),
    ok = antientropy:hold(Replica),
    ?assertMatch({ok, #{front := 10}}, antientropy:count(Replica)),
    ok = hash_all(Replica),
    ?assertMatch({ok, #{front := 11}}, antientropy:count(Replica)).

%% A call that holds a moment drops it, also if it is refused.
no_moment_is_left_test() ->
    Replica = fill(replica(), 10),
    {ok, Snapshot} = antientropy:snapshot(Replica),
    {ok, Offer} = antientropy_snapshot:offer(Snapshot, 1),
    no_moment(10, Replica),
    {ok, #{asks := 0}} = antientropy:sync(Replica, 2, Offer, fun(_) -> [] end),
    no_moment(10, Replica),
    {ok, _} = antientropy:put(Replica, 1, <<"later">>, <<>>),
    {error, bad_message} = antientropy:exchange(Replica, 2, <<>>, #{}),
    no_moment(10, Replica),
    {ok, _} = antientropy:exchange(Replica, 2, Offer, #{}),
    no_moment(11, Replica).

no_moment(Front, Replica) ->
    ?assertEqual({error, dirty}, antientropy:moment(Replica)),
    ?assertEqual({ok, 0}, antientropy:hash_moment(Replica, 0)),
    ?assertMatch({ok, #{front := Front}}, antientropy:count(Replica)).

%% Calls end while another process holds and drops moments.
beside_moments_test_() ->
    {timeout, 60, fun() ->
        Replica = fill(replica(), 1000),
        Expected = antientropy:root(fill(replica(), 1000)),
        Other = spawn(fun() -> hold_and_drop(Replica) end),
        try
            [?assertEqual(Expected, antientropy:root(Replica)) || _ <- lists:seq(1, 20)]
        after
            exit(Other, kill)
        end
    end}.

hold_and_drop(Replica) ->
    ok = antientropy:hold(Replica),
    ok = antientropy:drop_moment(Replica),
    hold_and_drop(Replica).

%% A replica may be closed while a portion is hashed, which takes some hundredths of a second here.
close_while_hashing_test() ->
    Replica = replica(),
    [{ok, _} = antientropy:put(Replica, Node, <<"k">>, binary:copy(<<"v">>, 65_536)) || Node <- lists:seq(1, 64)],
    ok = antientropy:hold(Replica),
    {Hashing, Monitor} = spawn_monitor(fun() -> exit({result, antientropy:hash_moment(Replica, 5000)}) end),
    timer:sleep(1),
    ok = antientropy:close(Replica),
    receive
        %% With one dirty scheduler the close waits for the other call.
        {'DOWN', Monitor, process, Hashing, {result, Result}} ->
            ?assert(Result =:= {error, empty} orelse element(1, Result) =:= ok)
    end,
    ?assertEqual({error, empty}, antientropy:hash_moment(Replica, 5000)).

%% Checkpoints and syncs end with the expected rows while another process puts without pause.
beside_puts_test_() ->
    {timeout, 60, fun() ->
        Replica = support:replica(#{}),
        Partner = fill(support:replica(#{}), 300),
        {Writer, Monitor} = spawn_monitor(fun() -> write(Replica, 0) end),
        [save_and_sync(Replica, Partner) || _ <- lists:seq(1, 5)],
        Writer ! stop,
        receive
            {'DOWN', Monitor, process, Writer, Reason} -> ?assertEqual(normal, Reason)
        end,
        ok = sync_both_ways(Replica, Partner),
        ?assertEqual(antientropy:root(Replica), antientropy:root(Partner))
    end}.

%% Puts values of some keys in turn until it is stopped.
write(_, ?MOST_PUTS) ->
    receive
        stop -> ok
    end;
write(Replica, Number) ->
    Key = <<"w ", (integer_to_binary(Number rem ?KEYS))/binary>>,
    Context = [{1, Counter} || Counter <- [Number div ?KEYS], Counter > 0],
    {ok, _} = antientropy:put(Replica, 1, Key, Key, Context),
    receive
        stop -> ok
    after 0 -> write(Replica, Number + 1)
    end.

%% Saves a checkpoint, and loads it, which compares its rows with its root; and syncs.
save_and_sync(Replica, Partner) ->
    {ok, File} = file:open(<<>>, [ram, binary, read, write]),
    {ok, #{entries := Before}} = antientropy:count(Replica),
    {ok, Saved} = antientropy:save(Replica, File),
    {ok, #{entries := After, front := Saved}} = antientropy:count(Replica),
    ?assert(Before =< Saved andalso Saved =< After),
    {ok, 0} = file:position(File, bof),
    {ok, Loaded} = antientropy:load(File),
    ok = antientropy:close(Loaded),
    ok = file:close(File),
    sync_both_ways(Replica, Partner).

sync_both_ways(Replica, Partner) ->
    ?assertMatch(#{report := finished}, support:sync(Replica, Partner)),
    ?assertMatch(#{report := finished}, support:sync(Partner, Replica)),
    ok.

%% Hashes the moment, some nodes at a time.
hash_all(Replica) ->
    case antientropy:hash_moment(Replica, 100) of
        {ok, 0} -> ok;
        {ok, _} -> hash_all(Replica)
    end.
