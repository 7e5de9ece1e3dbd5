%% @doc A range on its disk: restarts, checkpoints, renewals.
-module(range_tests).

-include_lib("eunit/include/eunit.hrl").

-define(RANGE, 0).

%% A range that restarts has the same root, and its counters continue.
restart_test_() ->
    room:test([], fun(_) ->
        start(),
        fill(1, 50),
        Before = dump(),
        restart(),
        ?assertEqual(Before, dump()),
        Key = key(1),
        {ok, [#{clock := #{33 := 1} = Clock}]} = versions(Key),
        ?assertEqual({error, stale_context}, cluster_range:put(?RANGE, Key, <<"again">>, #{})),
        ?assertMatch({ok, #{clock := #{33 := 2}}}, cluster_range:put(?RANGE, Key, <<"again">>, Clock))
    end).

%% A put is refused if its client hasn't read this life's last put of the key, even if its clock would be new.
unread_put_test_() ->
    room:test([], fun(_) ->
        start(),
        Key = key(1),
        {ok, #{clock := First}} = cluster_range:put(?RANGE, Key, <<"first">>, #{}),
        [{ok, new}] = cluster_range:copies(?RANGE, [{Key, #{clock => #{2 => 1}, value => <<"other">>}}]),
        {ok, _} = cluster_range:put(?RANGE, Key, <<"second">>, First),
        ?assertEqual({error, stale_context}, cluster_range:put(?RANGE, Key, <<"third">>, First#{2 => 1}))
    end).

%% After checkpoints the older files of the log are gone, and a restart has everything.
checkpoint_test_() ->
    room:test([{checkpoint_entries, 20}], fun(Folder) ->
        start(),
        [fill(From, From + 19) || From <- [1, 21, 41, 61, 81]],
        room:until(fun() -> kinds(Folder) =:= ["checkpoint", "log", "manifest", "synced"] end),
        Before = dump(),
        restart(),
        ?assertEqual(Before, dump())
    end).

%% The kinds of files of the range.
kinds(Folder) ->
    lists:sort([hd(string:split(filename:basename(File), ".")) || File <- filelib:wildcard("range-0/*", Folder)]).

%% A crash may leave an unfinished checkpoint: it has another name.
unfinished_checkpoint_test_() ->
    room:test([{checkpoint_entries, 20}], fun(Folder) ->
        start(),
        fill(1, 50),
        Before = dump(),
        ok = room:stop(cluster_range_0),
        ok = file:write_file(filename:join(Folder, "range-0/checkpoint.9.new"), <<"antient">>),
        start(),
        ?assertEqual(Before, dump())
    end).

%% Renewals keep the root, before and after a restart, and numbers of entries continue. A renewed range has space, and
%% isn't renewed again at once. The log has more records than the journal may have entries.
renewal_test_() ->
    room:test([{limit, 40}], fun(_) ->
        start(),
        fill(1, 20),
        [put_again(key(Number)) || _ <- lists:seq(1, 5), Number <- lists:seq(1, 20)],
        Replica = replica(),
        #{entries := Entries, limit := 40} = cluster_range:counts(?RANGE),
        ?assert(Entries < 40),
        ?assertMatch({ok, #{entries := 120}}, antientropy:about(Replica)),
        fill(21, 21),
        Before = dump(),
        restart(),
        ?assertEqual(Before, dump()),
        put_again(key(1)),
        ?assertMatch({ok, [#{clock := #{33 := 7}}]}, versions(key(1)))
    end).

%% Puts, reads and writes of the log continue during a renewal. A sync has to wait, and so has a put when a twentieth of
%% the limit is left.
beside_puts_test_() ->
    with_maker(fun made_when_told/1, [{limit, 100}], fun(_) ->
        start(),
        [ok = take_all(Partner) || Partner <- [2, 3]],
        Replica = replica(),
        Clock = rewrite(key(1), #{}, 90),
        Maker = maker(),
        Later = rewrite(key(1), Clock, 4),
        {ok, #{first := 0, entries := 94}} = antientropy:count(Replica),
        ?assertMatch({ok, <<_, _/binary>>}, cluster_range:row(?RANGE, key(1))),
        ?assertEqual({error, busy}, cluster_range:borrow(?RANGE)),
        Before = dump(),
        restart(),
        ?assertEqual(Before, dump()),
        Again = maker(),
        Last = rewrite(key(1), Later, 1),
        {Putting, Monitor} = spawn_monitor(fun() -> exit({put, rewrite(key(1), Last, 1)}) end),
        receive
            {'DOWN', Monitor, process, Putting, Early} -> error(Early)
        after 100 -> Again ! make
        end,
        receive
            {'DOWN', Monitor, process, Putting, Result} -> ?assertEqual({put, #{33 => 96}}, Result)
        end,
        ?assertMatch({ok, #{first := 94, entries := 96}}, antientropy:count(replica())),
        Renewed = dump(),
        restart(),
        maker() ! make,
        ?assertEqual(Renewed, dump()),
        Maker ! make
    end).

%% A range continues if the process that renews crashes, or is refused, and tries again.
renewal_refused_test_() ->
    with_maker(fun crashed_then_refused/1, [{limit, 100}], fun(_) ->
        start(),
        Clock = rewrite(key(1), #{}, 90),
        room:until(fun() -> events(renewal_refused) >= 1 end),
        Later = rewrite(key(1), Clock, 5),
        Before = dump(),
        room:until(fun() -> events(renewal) =:= 1 end),
        ?assertEqual(2, events(renewal_refused)),
        ?assertMatch(#{entries := 1}, cluster_range:counts(?RANGE)),
        ?assertEqual(Before, dump()),
        ?assertEqual(#{33 => 96}, rewrite(key(1), Later, 1))
    end).

%% Runs a test with another function that makes renewals.
with_maker(Make, Settings, Test) ->
    room:test(Settings, fun(Folder) ->
        true = register(?MODULE, self()),
        replaced:with({antientropy, renewal, 2}, Make, fun() -> Test(Folder) end),
        true = unregister(?MODULE)
    end).

made_when_told(Arguments) ->
    ?MODULE ! {maker, self()},
    receive
        make -> made(Arguments)
    end.

made([Replica, Limit]) ->
    antientropy_renewal:make(Replica, Limit).

crashed_then_refused(Arguments) ->
    case events(renewal_refused) of
        0 -> exit(crashed);
        1 -> {error, no_memory};
        2 -> made(Arguments)
    end.

%% Returns the process that makes a renewal, when it has begun.
maker() ->
    receive
        {maker, Maker} -> Maker
    end.

events(Name) ->
    lists:sum([Count || {[{event, Event}], Count} <- cluster_metrics:values(events), Event =:= Name]).

%% Puts a key some times, and returns its clock.
rewrite(Key, Clock, Times) ->
    Put = fun(_, Context) ->
        {ok, #{clock := Next}} = cluster_range:put(?RANGE, Key, <<"value">>, Context),
        Next
    end,
    lists:foldl(Put, Clock, lists:seq(1, Times)).

%% Returns the replica when no renewal is in progress.
replica() ->
    case cluster_range:borrow(?RANGE) of
        {ok, Replica} ->
            ok = cluster_range:give_back(?RANGE, Replica, some),
            Replica;
        {error, busy} ->
            timer:sleep(1),
            replica()
    end.

%% A range that is full of held versions refuses keys that it doesn't hold, and takes puts and deletes of held ones.
full_test_() ->
    room:test([{limit, 100}], fun(_) ->
        start(),
        Put = fun(Number) -> element(1, cluster_range:put(?RANGE, key(Number), <<"value">>, #{})) end,
        Taken = length(lists:takewhile(fun(Number) -> Put(Number) =:= ok end, lists:seq(1, 100))),
        ?assert(Taken >= 95 andalso Taken < 98),
        ?assertEqual({error, journal_full}, cluster_range:put(?RANGE, key(Taken + 1), <<"value">>, #{})),
        [put_again(key(Number)) || _ <- lists:seq(1, 10), Number <- lists:seq(1, Taken)],
        _ = room:all_at_once(fun(Number) -> put_again(key(Number)) end, lists:seq(1, Taken)),
        [delete(key(Number)) || Number <- lists:seq(1, Taken)],
        restart(),
        ?assertEqual({error, journal_full}, cluster_range:put(?RANGE, key(Taken + 1), <<"value">>, #{})),
        put_again(key(1)),
        ?assertMatch({ok, [#{value := tombstone}]}, versions(key(Taken)))
    end).

delete(Key) ->
    {ok, [#{clock := Clock}]} = versions(Key),
    {ok, _} = cluster_range:put(?RANGE, Key, tombstone, Clock).

%% Once a process has given a replica back, everything that it accepted is on the disk.
borrowed_test_() ->
    room:test([], fun(_) ->
        start(),
        {ok, Replica} = cluster_range:borrow(?RANGE),
        {ok, new} = antientropy:accept(Replica, key(1), #{clock => #{2 => 1}, value => <<"other">>}),
        ok = cluster_range:give_back(?RANGE, Replica, some),
        restart(),
        ?assertMatch({ok, [#{value := <<"other">>}]}, versions(key(1)))
    end).

%% A range that ended while a process had its replica takes it back, and forgets entries that weren't on the disk. Stray
%% messages do no harm.
lent_and_ended_test_() ->
    room:test([], fun(_) ->
        start(),
        {ok, Replica} = cluster_range:borrow(?RANGE),
        {ok, new} = antientropy:accept(Replica, key(1), #{clock => #{2 => 1}, value => <<"other">>}),
        restart(),
        ok = cluster_range:give_back(?RANGE, Replica, {all_of, 2}),
        cluster_range_0 ! stray,
        ?assertEqual({ok, []}, versions(key(1)))
    end).

%% The replica isn't renewed while a process syncs into it, and the next process has to wait.
busy_test_() ->
    room:test([{limit, 40}], fun(_) ->
        start(),
        {ok, Replica} = cluster_range:borrow(?RANGE),
        fill(1, 5),
        [put_again(key(1)) || _ <- lists:seq(1, 32)],
        ?assertMatch({ok, #{entries := 37}}, antientropy:count(Replica)),
        {error, busy} = call_elsewhere(fun() -> cluster_range:borrow(?RANGE) end),
        ok = cluster_range:give_back(?RANGE, Replica, some),
        room:until(fun() -> maps:get(entries, cluster_range:counts(?RANGE)) =:= 5 end),
        ?assertMatch({ok, #{entries := 37, first := 32}}, antientropy:count(Replica))
    end).

%% Syncs leave no session, so no number of them renews the range.
sessions_test_() ->
    room:test([], fun(_) ->
        start(),
        fill(1, 3),
        Before = dump(),
        {ok, Partner} = antientropy:new(cluster_ring:replica_options(?RANGE)),
        {ok, Snapshot} = antientropy:snapshot(Partner),
        {ok, Offer} = antientropy_snapshot:offer(Snapshot, 1),
        {ok, Replica} = cluster_range:borrow(?RANGE),
        [{ok, #{report := too_many_lost}} = sync(Replica, Offer) || _ <- lists:seq(1, 1100)],
        ok = cluster_range:give_back(?RANGE, Replica, some),
        #{sessions := 0, bytes := Bytes} = cluster_range:counts(?RANGE),
        ?assertMatch({ok, #{sessions := 0, first := 0}}, antientropy:count(Replica)),
        Journal = lists:sum([byte_size(key(Number)) + byte_size(<<"value">>) + 10 || Number <- lists:seq(1, 3)]),
        ?assertMatch(#{sessions := 0, journal := Journal}, Bytes),
        ?assertEqual({ok, Bytes}, antientropy:bytes(Replica)),
        ?assertEqual(Before, dump())
    end).

%% Begins a sync with a partner that doesn't answer.
sync(Replica, Offer) ->
    antientropy:sync(Replica, 2, Offer, fun(_) -> [] end, #{lost => 0}).

%% A reply has answers of 1 MB, or one answer. The missing ones are asked for again.
replies_test_() ->
    room:test([], fun(_) ->
        start(),
        Put = fun(Number) -> cluster_range:put(?RANGE, key(Number), binary:copy(<<"v">>, 65000), #{}) end,
        [{ok, _} = Answer || Answer <- room:all_at_once(Put, lists:seq(1, 40))],
        {ok, Offer} = cluster_range:offer(?RANGE, 2),
        {ok, #{number := Number}} = antientropy:read_offer(Offer),
        Reach = fun(Asks) ->
            Answers = cluster_range:serve(?RANGE, 2, Number, Asks),
            ?assert(length(Answers) =:= 1 orelse iolist_size([Answer || {ok, Answer} <- Answers]) =< 1000000),
            Answers
        end,
        {ok, Copy} = antientropy:new(cluster_ring:replica_options(?RANGE)),
        {ok, #{report := finished, accepted := 40, lost := Lost}} = antientropy:sync(Copy, 1, Offer, Reach),
        ?assert(Lost > 0),
        ?assertEqual([], cluster_range:serve(?RANGE, 2, Number + 1, [<<2, (Number + 1):32, 0, 0:16>>]))
    end).

%% The range of a new life doesn't count in reads until each other holder's versions are in it, also after a restart.
joining_test_() ->
    room:test([], fun(_) ->
        start(),
        Key = key(1),
        {ok, Row} = row_of(#{clock => #{34 => 1}, value => <<"other">>}, Key),
        ?assertEqual({error, joining}, cluster_range:row(?RANGE, Key)),
        ?assertEqual({error, down}, cluster_range:read(?RANGE, Key, [Row], 2)),
        ?assertMatch({ok, [_], Row}, cluster_range:read(?RANGE, Key, [Row, Row], 2)),
        ok = take_all(2),
        restart(),
        ok = take_all(3),
        ?assertNot(cluster_range:is_joined(?RANGE)),
        ok = take_all(2),
        ?assertMatch({ok, _}, cluster_range:row(?RANGE, Key)),
        ?assertMatch({ok, [_], Row}, cluster_range:read(?RANGE, Key, [Row], 2)),
        restart(),
        ?assert(cluster_range:is_joined(?RANGE))
    end).

take_all(Partner) ->
    {ok, Replica} = cluster_range:borrow(?RANGE),
    cluster_range:give_back(?RANGE, Replica, {all_of, Partner}).

row_of(Version, Key) ->
    {ok, Replica} = antientropy:new(cluster_ring:replica_options(?RANGE)),
    {ok, new} = antientropy:accept(Replica, Key, Version),
    antientropy:row(Replica, Key).

%% A holder that knows a version returns its row. A holder that has another value under its clock takes nothing.
known_test_() ->
    room:test([], fun(_) ->
        start(),
        Version = #{clock => #{34 => 1}, value => <<"other">>},
        ?assertEqual({ok, new}, cluster_range:copy(?RANGE, key(1), Version)),
        ?assertEqual({ok, {known, [Version]}}, cluster_range:copy(?RANGE, key(1), Version)),
        ?assertEqual([{ok, known}], cluster_range:copies(?RANGE, [{key(1), Version}])),
        ?assertEqual({ok, {known, [Version]}}, cluster_range:copy(?RANGE, key(1), Version#{value := <<"again">>})),
        ?assertEqual({ok, [Version], 0, 33}, cluster_range:own(?RANGE, key(1)))
    end).

%% A version with a later counter of this life shows that the disk has lost something. Nobody gets an answer.
forgotten_test_() ->
    room:test([], fun(_) ->
        start(),
        {ok, #{clock := #{33 := 1} = Clock}} = cluster_range:put(?RANGE, key(1), <<"value">>, #{}),
        [{ok, new}] = cluster_range:copies(?RANGE, [{key(1), #{clock => Clock#{34 => 1}, value => <<"other">>}}]),
        true = register(cluster_life, self()),
        Harmless = {key(2), #{clock => #{34 => 1}, value => <<"one">>}},
        Later = {key(1), #{clock => #{33 => 2}, value => <<"two">>}},
        {Caller, Monitor} = spawn_monitor(fun() -> cluster_range:copies(?RANGE, [Harmless, Later]) end),
        receive
            {'$gen_call', From, {lost, 33, _}} -> gen_server:reply(From, ok)
        end,
        true = unregister(cluster_life),
        ok = room:kill(cluster_range_0),
        receive
            {'DOWN', Monitor, process, Caller, Reason} -> ?assertMatch({killed, _}, Reason)
        end,
        start(),
        ?assertEqual({ok, [], 0, 33}, cluster_range:own(?RANGE, key(2)))
    end).

%% One such version is found among few and among many, also after a renewal that has left entries out.
forgotten_among_test_() ->
    room:test([], fun(_) ->
        Look = fun(Count, Counter) ->
            {ok, Full} = antientropy:new(cluster_ring:replica_options(?RANGE)),
            [{ok, _} = antientropy:put(Full, 33, key(101), <<"value">>, Context) || Context <- [#{}, #{33 => 1}]],
            [{ok, _} = antientropy:put(Full, 33, key(Number), <<"value">>) || Number <- lists:seq(1, Count)],
            {ok, Replica} = antientropy:renew(Full),
            Copy = fun(Number, With) -> #{clock => #{33 => With, 34 => Number}, value => <<"other">>} end,
            [{ok, new} = antientropy:accept(Replica, key(Number), Copy(Number, 1)) || Number <- lists:seq(1, Count)],
            {ok, new} = antientropy:accept(Replica, key(Count), Copy(Count + 1, Counter)),
            {ok, Entries} = antientropy:entries(Replica, Count + 2),
            cluster_replica:forgotten(Replica, 33, Entries)
        end,
        ?assertEqual([false, true, false, true], [Look(Count, Counter) || Count <- [3, 100], Counter <- [1, 2]])
    end).

%% While the disk is full a range refuses changes, and shows nothing that isn't on the disk. Then it continues. A start
%% needs no space.
no_room_test_() ->
    room:full_test([], fun(_) ->
        start(),
        [ok = take_all(Partner) || Partner <- [2, 3]],
        fill(1, 10),
        Put = fun(Number) -> cluster_range:put(?RANGE, key(Number), binary:copy(<<"v">>, 60000), #{}) end,
        Answers = room:all_at_once(fun(Number) -> {Number, Put(Number)} end, lists:seq(11, 99)),
        Refused = [Number || {Number, {error, disk_full}} <- Answers],
        ?assertEqual(89, length(Refused) + length([put || {_, {ok, _}} <- Answers])),
        ?assert(cluster_space:is_full()),
        Other = #{clock => #{34 => 1}, value => <<"other">>},
        ?assertEqual({error, disk_full}, cluster_range:put(?RANGE, key(1), <<"value">>, #{})),
        ?assertEqual({error, disk_full}, cluster_range:copy(?RANGE, key(1), Other)),
        ?assertEqual({error, disk_full}, cluster_range:borrow(?RANGE)),
        [?assertEqual({ok, [], <<>>}, cluster_range:read(?RANGE, key(Number), [], 1)) || Number <- Refused],
        {ok, Row} = row_of(Other, key(1)),
        ?assertMatch({ok, [_, _], _}, cluster_range:read(?RANGE, key(1), [Row], 2)),
        ?assertEqual({error, disk_full}, cluster_range:take_row(?RANGE, key(1), Row)),
        ?assertMatch({ok, [_], _}, cluster_range:read(?RANGE, key(1), [], 1)),
        Before = dump(),
        restart(),
        ?assertEqual(Before, dump()),
        ok = file:write_file(filename:join(cluster_settings:folder(), "filler"), <<>>)
    end).

%% A limit that is smaller than the number of held versions is refused in one line with both numbers.
limit_test_() ->
    room:test([], fun(_) ->
        start(),
        fill(1, 45),
        ok = room:kill(cluster_range_0),
        Refused = room:elsewhere([{limit, 30}], "cluster_range:start_link(0)"),
        ?assertEqual({1, "the limit 30 is smaller than the 45 versions of range 0\n"}, Refused)
    end).

start() ->
    {ok, Pid} = cluster_range:start_link(?RANGE),
    true = unlink(Pid),
    ok.

restart() ->
    ok = room:kill(cluster_range_0),
    start().

dump() ->
    cluster_range:dump(?RANGE).

%% Puts the keys from `From' to `To'.
fill(From, To) ->
    Put = fun(Number) -> cluster_range:put(?RANGE, key(Number), <<"value">>, #{}) end,
    [{ok, _} = Answer || Answer <- room:all_at_once(Put, lists:seq(From, To))].

put_again(Key) ->
    {ok, [#{clock := Clock}]} = versions(Key),
    {ok, _} = cluster_range:put(?RANGE, Key, <<"again">>, Clock).

versions(Key) ->
    {ok, Versions, _, _} = cluster_range:own(?RANGE, Key),
    {ok, Versions}.

call_elsewhere(Fun) ->
    {_, Monitor} = spawn_monitor(fun() -> exit({result, Fun()}) end),
    receive
        {'DOWN', Monitor, process, _, {result, Result}} -> Result
    end.

key(Number) ->
    room:key(Number).
