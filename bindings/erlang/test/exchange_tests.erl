%% Exchanges, and whole syncs.
-module(exchange_tests).

-include_lib("eunit/include/eunit.hrl").

-import(support, [replica/0, replica/1, fill/2, key/1]).

%% Each test has a replica with 300 keys, and an empty one.
exchanges_test_() ->
    {foreach, fun() -> {fill(replica(), 300), replica()} end, [
        {with, [Test]}
     || Test <- [
            fun both_ways/1,
            fun equal_roots/1,
            fun any_order_and_a_lost_ask/1,
            fun verdicts/1,
            fun a_partner_that_lies/1,
            fun a_link_that_fails/1,
            fun journal_full/1,
            fun not_canonical/1,
            fun closed/1,
            fun killed/1,
            fun bytes_of_sessions/1,
            fun syncs_at_once/1
        ]
    ]}.

offered(Partner) ->
    {ok, Snapshot} = antientropy:snapshot(Partner),
    {ok, Offer} = antientropy_snapshot:offer(Snapshot, 1),
    {Snapshot, Offer}.

%% Syncs b from a, by a link that changes lists of answers.
sync(Pair, Change) ->
    sync(Pair, Change, #{}).

sync({A, B}, Change, Bounds) ->
    {Snapshot, Offer} = offered(A),
    Reach = support:reach(Snapshot, 1),
    antientropy:sync(B, 1, Offer, fun(Asks) -> Change(Reach(Asks)) end, Bounds).

serve(Snapshot, Ask) ->
    {ok, Answer} = antientropy_snapshot:serve(Snapshot, 1, Ask),
    Answer.

both_ways({A, B}) ->
    {ok, _} = antientropy:put(B, 2, <<"other">>, <<>>),
    Taken = #{report => finished, known => 0, bad => 0, lost => 0, left => []},
    {ok, There} = sync({A, B}, fun lists:reverse/1),
    ?assertEqual(Taken#{accepted => 300}, maps:remove(asks, There)),
    ?assertMatch({ok, #{report := finished, accepted := 1}}, sync({B, A}, fun lists:reverse/1)),
    ?assertEqual(antientropy:root(A), antientropy:root(B)),
    ?assertMatch({ok, #{sessions := 0}}, antientropy:count(B)).

%% The roots of empty replicas are equal, whatever their format and range.
equal_roots(_) ->
    Empty = fun(Format, Range) -> replica(#{format => Format, bits => 1, range => Range}) end,
    [Partner, Same, First, Other] = [Empty(2, 0), Empty(2, 0), Empty(1, 0), Empty(2, 1)],
    NoLink = fun(_) -> error(no_link) end,
    ?assertEqual({error, other_format}, sync({Partner, First}, NoLink)),
    ?assertEqual({error, other_range}, sync({Partner, Other}, NoLink)),
    Nothing = #{report => finished, accepted => 0, known => 0, asks => 0, bad => 0, lost => 0, left => []},
    ?assertEqual({ok, Nothing}, sync({Partner, Same}, NoLink)),
    {_, Offer} = offered(Partner),
    {ok, Exchange} = antientropy:exchange(Same, 1, Offer, #{}),
    ?assertMatch({ok, #{report := finished}}, antientropy_exchange:progress(Exchange)),
    ?assertMatch({ok, #{sessions := 0}}, antientropy:count(Same)).

any_order_and_a_lost_ask({A, B}) ->
    {Snapshot, Offer} = offered(A),
    {ok, Exchange} = antientropy:exchange(B, 1, Offer, #{asks => 10, lost => 1}),
    {ok, [Ask]} = antientropy_exchange:asks(Exchange),
    ?assertEqual({ok, []}, antientropy_exchange:asks(Exchange)),
    {ok, #{bytes_in_flight := Bytes} = Sent} = antientropy_exchange:progress(Exchange),
    ?assert(Bytes > 0),
    ?assertMatch(#{report := waiting, cause := none, asks := 1, in_flight := 1, bad := 0, lost := 0, known := 0}, Sent),
    ok = antientropy_exchange:lose(Exchange, Ask),
    ok = antientropy_exchange:lose(Exchange, Ask),
    ?assertEqual({error, bad_message}, antientropy_exchange:lose(Exchange, <<>>)),
    Batches = take_all(Exchange, Snapshot),
    ?assertEqual(10, lists:max(Batches)),
    Asks = 1 + lists:sum(Batches),
    {ok, Keys} = antientropy:keys(A),
    Leaves = lists:usort([leaf(Key) || Key <- Keys]),
    Counts = #{asks => Asks, in_flight => 0, bytes_in_flight => 0, lost => 1, accepted => 300},
    Ended = maps:merge(Sent#{report := finished, leaves => length(Leaves)}, Counts),
    ?assertEqual({ok, Ended}, antientropy_exchange:progress(Exchange)),
    {ok, Entries} = antientropy:entries(B, 0),
    ?assertEqual([partner], lists:usort([Source || #{source := Source} <- Entries])),
    ok = antientropy_exchange:close(Exchange),
    ?assertEqual(antientropy:root(A), antientropy:root(B)).

leaf(Key) ->
    {ok, #{leaf := Leaf}} = antientropy:place(2, 0, Key),
    Leaf.

%% Takes the answers of each batch in reverse order, and returns the numbers of asks in the batches.
take_all(Exchange, Snapshot) ->
    case antientropy_exchange:asks(Exchange) of
        {ok, []} ->
            [];
        {ok, Asks} ->
            [{ok, _} = antientropy_exchange:take(Exchange, serve(Snapshot, Ask)) || Ask <- lists:reverse(Asks)],
            [length(Asks) | take_all(Exchange, Snapshot)]
    end.

verdicts({A, B}) ->
    {Snapshot, Offer} = offered(A),
    {ok, Exchange} = antientropy:exchange(B, 1, Offer, #{bad => 3}),
    {ok, [Ask]} = antientropy_exchange:asks(Exchange),
    Answer = serve(Snapshot, Ask),
    Wrong = support:flip(Answer, byte_size(Answer) - 1),
    [
        ?assertEqual(
            {ok, #{verdict => Verdict, cause => Cause, accepted => 0, known => 0}},
            antientropy_exchange:take(Exchange, Bytes)
        )
     || {Verdict, Cause, Bytes} <- [
            {bad, bad_message, <<>>},
            {bad, not_asked, serve(Snapshot, <<2, 1:32, 1, 0:16>>)},
            {late, none, <<3, 2:32, 0, 0:16, 0:64>>},
            {bad, wrong_digest, Wrong},
            {taken, none, Answer},
            {late, none, Answer}
        ]
    ].

a_partner_that_lies(Pair) ->
    Lie = fun(Answers) -> [{ok, support:flip(Answer, byte_size(Answer) - 1)} || {ok, Answer} <- Answers] end,
    ?assertMatch({ok, #{report := too_many_bad, bad := 6, asks := 6}}, sync(Pair, Lie, #{bad => 5})),
    [
        ?assertMatch({ok, #{report := too_many_lost, lost := 4}}, sync(Pair, fun(_) -> Lost end, #{lost => 3}))
     || Lost <- [[], [{error, timeout}]]
    ].

a_link_that_fails({_, B} = Pair) ->
    ?assertExit(noconnection, sync(Pair, fun(_) -> exit(noconnection) end)),
    ?assertMatch({ok, #{sessions := 0, open_sessions := 0}}, antientropy:count(B)).

%% The replica keeps the versions that it accepted.
journal_full({A, _}) ->
    Small = replica(#{limit => 10}),
    ?assertEqual({error, journal_full}, sync({A, Small}, fun(Answers) -> Answers end)),
    {ok, #{entries := Entries, sessions := 0}} = antientropy:count(Small),
    ?assert(Entries > 0),
    {Snapshot, Offer} = offered(A),
    {ok, Exchange} = antientropy:exchange(Small, 1, Offer, #{}),
    _ = take_all(Exchange, Snapshot),
    ?assertMatch({ok, #{report := stopped, cause := journal_full}}, antientropy_exchange:progress(Exchange)),
    ok = antientropy_exchange:go_on(Exchange),
    ?assertMatch({ok, [_ | _]}, antientropy_exchange:asks(Exchange)).

not_canonical({_, B}) ->
    Digest = binary:decode_hex(<<"EF875A1705A5FDAC206BE996F4DC1F726EA6B68861EB741C37DEF7277F179E37">>),
    Reach = fun(_) -> [{ok, <<3, 7:32, 0, 0:16, 4:64, "junk">>}] end,
    ?assertEqual({error, not_canonical}, antientropy:sync(B, 1, <<1, 7:32, 2, 0, Digest/binary>>, Reach)),
    ?assertMatch({ok, #{entries := 0, sessions := 0}}, antientropy:count(B)).

closed({A, B}) ->
    {_, Offer} = offered(A),
    [{ok, Closed}, {ok, OfClosed}] = [antientropy:exchange(B, 1, Offer, #{}) || _ <- [1, 2]],
    ok = antientropy_exchange:close(Closed),
    ok = antientropy_exchange:close(Closed),
    ?assertMatch({ok, #{sessions := 1}}, antientropy:count(B)),
    ?assertMatch({ok, [_]}, antientropy_exchange:asks(OfClosed)),
    ok = antientropy:close(B),
    [?assertEqual({error, empty}, antientropy_exchange:Call(Closed)) || Call <- [asks, go_on, progress, left]],
    [?assertEqual({error, empty}, antientropy_exchange:Call(Closed, <<>>)) || Call <- [take, lose]],
    [?assertEqual({error, empty}, antientropy_exchange:Call(OfClosed)) || Call <- [asks, progress, left]],
    support:badarg(fun() -> antientropy_exchange:take(OfClosed, none) end),
    ok = antientropy_exchange:close(OfClosed).

%% Processes that are killed leave no session: at most 64 may be open.
killed({A, B}) ->
    {_, Offer} = offered(A),
    Open = fun() ->
        {ok, _} = antientropy:exchange(B, 1, Offer, #{}),
        exit(self(), kill)
    end,
    [?assertEqual(killed, reason(spawn_monitor(Open))) || _ <- lists:seq(1, 100)],
    drop_all(B).

%% (The memory of the last process may be freed a little later.)
drop_all(Replica) ->
    ok = antientropy:drop_sessions(Replica),
    case antientropy:count(Replica) of
        {ok, #{sessions := 0}} ->
            ok;
        {ok, _} ->
            timer:sleep(1),
            drop_all(Replica)
    end.

%% Returns the reason for which a process ends.
reason({Process, Monitor}) ->
    receive
        {'DOWN', Monitor, process, Process, Reason} -> Reason
    end.

%% A session keeps the leaf of a key that is put again, until it is dropped.
bytes_of_sessions({A, B}) ->
    {Snapshot, _} = offered(A),
    {ok, Rows} = antientropy_snapshot:rows(Snapshot, leaf(key(3))),
    {ok, Before} = antientropy_snapshot:bytes(Snapshot),
    {_, Offer} = offered(B),
    {ok, Exchange} = antientropy:exchange(A, 2, Offer, #{}),
    ?assertMatch({ok, #{sessions := 0}}, antientropy:bytes(A)),
    {ok, _} = antientropy:put(A, 1, key(3), <<"a longer value">>, #{1 => 1}),
    ok = antientropy:rehash(A),
    {ok, #{rows := Now, sessions := Kept} = Bytes} = antientropy:bytes(A),
    ?assertEqual({byte_size(Rows), Before + 9}, {Kept, Now}),
    ok = antientropy_exchange:close(Exchange),
    ?assertEqual({ok, Bytes#{sessions := 0}}, antientropy:bytes(A)).

%% Syncs of one replica drop the sessions of each other, when these have ended.
syncs_at_once({_, B}) ->
    Take = fun(Partner) ->
        [
            begin
                {ok, _} = antientropy:put(Partner, 1, key(Number), <<"value">>),
                ?assertMatch(#{report := finished}, support:sync(B, Partner))
            end
         || Number <- lists:seq(1, 50)
        ]
    end,
    Syncing = [spawn_monitor(fun() -> Take(replica()) end) || _ <- lists:seq(1, 4)],
    [?assertEqual(normal, reason(Sync)) || Sync <- Syncing],
    ?assertMatch({ok, #{sessions := 0}}, antientropy:count(B)).

%% A partner has 20 keys that a replica doesn't have. Between the two, a key in the leaf that is asked first is crowded.
%% The partner answers each ask for a leaf with the true text of that leaf: no other leaf is left for it.
crowded_leaf_test() ->
    [A, B] = [replica(), replica()],
    Keys = [key(Number) || Number <- lists:seq(1, 21)],
    [{ok, _} = antientropy:put(A, 100, Key, <<"value">>) || Key <- Keys],
    [{Leaf, Crowded}, {Second, _} | _] = lists:sort([{leaf(Key), Key} || Key <- Keys]),
    ?assertNotEqual(Leaf, Second),
    support:crowd(B, Crowded),
    {Snapshot, Offer} = offered(A),
    Lie = fun(Asks) -> [antientropy_snapshot:serve(Snapshot, 1, ask_of(Leaf, Ask)) || Ask <- Asks] end,
    ?assertMatch(
        {ok, #{report := too_many_lost, left := [Leaf], accepted := 0, bad := 0}}, antientropy:sync(B, 1, Offer, Lie)
    ),
    ?assertMatch(
        {ok, #{report := left, left := [Leaf], accepted := 20, bad := 0, lost := 0}}, sync({A, B}, fun lists:reverse/1)
    ).

%% The ask for a leaf in the place of that for another one.
ask_of(Leaf, <<Offer:5/binary, 3, _:16>>) -> <<Offer/binary, 3, Leaf:16>>;
ask_of(_, Ask) -> Ask.

%% Syncs a replica of 2,000 keys with values of 300 bytes from a partner that has put 20 of them again, by a link that
%% changes patches. Returns the numbers of bytes of outlines and patches, and of the answers in whose place they are.
sync_long_rows(Change) ->
    Value = binary:copy(<<"v">>, 300),
    [A, B] = Pair = [replica(), replica()],
    [{ok, _} = antientropy:put(Each, 1, key(Number), Value) || Each <- Pair, Number <- lists:seq(1, 2000)],
    [{ok, _} = antientropy:put(A, 1, key(100 * Number), <<"new">>, #{1 => 1}) || Number <- lists:seq(1, 20)],
    {Snapshot, Offer} = offered(A),
    Sent = counters:new(2, []),
    Serve = fun
        (<<4, Node:7/binary, _/binary>> = Outline) ->
            Patch = serve(Snapshot, Outline),
            ok = counters:add(Sent, 1, byte_size(Outline) + byte_size(Patch)),
            ok = counters:add(Sent, 2, byte_size(serve(Snapshot, <<2, Node/binary>>))),
            Change(Patch);
        (Ask) ->
            {ok, serve(Snapshot, Ask)}
    end,
    {ok, Synced} = antientropy:sync(B, 1, Offer, fun(Asks) -> lists:map(Serve, Asks) end),
    ?assertMatch(#{report := finished, accepted := 20, bad := 0, lost := 0}, Synced),
    {counters:get(Sent, 1), counters:get(Sent, 2)}.

%% Bytes that both have aren't sent.
patches_test() ->
    {Sent, Answered} = sync_long_rows(fun(Patch) -> {ok, Patch} end),
    ?assert(3 * Sent < Answered).

%% Within plain bounds no ask is an outline.
plain_asks_test() ->
    [A, B] = [replica(), replica()],
    Value = binary:copy(<<"v">>, 300),
    [{ok, _} = antientropy:put(Each, 1, <<"key">>, Value) || Each <- [A, B]],
    {ok, _} = antientropy:put(A, 1, <<"key">>, <<"new">>, #{1 => 1}),
    {Snapshot, Offer} = offered(A),
    Serve = fun(<<2, _:7/binary>> = Ask) -> {ok, serve(Snapshot, Ask)} end,
    Reach = fun(Asks) -> lists:map(Serve, Asks) end,
    ?assertMatch({ok, #{accepted := 1}}, antientropy:sync(B, 1, Offer, Reach, #{plain => true})).

%% The exchange sends plain asks if the partner lies in each patch, or refuses outlines because it doesn't know them.
outlines_without_a_text_count_as_nothing_test() ->
    Lie = fun(Patch) -> {ok, support:flip(Patch, byte_size(Patch) - 1)} end,
    Refuse = fun(_) -> {error, bad_message} end,
    [?assertNotEqual({0, 0}, sync_long_rows(Change)) || Change <- [Lie, Refuse]].

%% Of 100,000 keys at both 1,100 are newer at the partner. The time for the sync is over after each batch: the replica
%% puts, and continues with the same exchange.
deadline_test_() ->
    {timeout, 60, fun() ->
        [Partner, Replica] = [replica(#{}), replica(#{})],
        Value = binary:copy(<<"v">>, 100),
        [{ok, _} = antientropy:put(Partner, 1, key(Number), Value) || Number <- lists:seq(1, 100_000)],
        {ok, Before} = antientropy:snapshot(Partner),
        [
            {ok, _} = antientropy:load_rows(Replica, Rows)
         || Leaf <- lists:seq(0, 4095), {ok, Rows} <- [antientropy_snapshot:rows(Before, Leaf)]
        ],
        [
            {ok, _} = antientropy:put(Partner, 1, key(90 * Number), Value, #{1 => 1})
         || Number <- lists:seq(1, 1100)
        ],
        {Snapshot, Offer} = offered(Partner),
        {ok, Exchange} = antientropy:exchange(Replica, 1, Offer, #{}),
        Carried = byte_size(Offer) + take_and_put(Exchange, Replica, Snapshot, 1),
        ?assertMatch({ok, #{report := finished, accepted := 1100}}, antientropy_exchange:progress(Exchange)),
        ?assertMatch({ok, #{sessions := 1}}, antientropy:count(Replica)),
        ?assert(Carried =< 4_000_000),
        ok = antientropy_exchange:close(Exchange),
        ?assertMatch({ok, #{sessions := 0}}, antientropy:count(Replica))
    end}.

%% Takes the answers of one batch after another, each followed by a put, and returns the number of bytes of messages.
take_and_put(Exchange, Replica, Snapshot, Batch) ->
    case antientropy_exchange:asks(Exchange) of
        {ok, []} ->
            0;
        {ok, Asks} ->
            Answers = [serve(Snapshot, Ask) || Ask <- Asks],
            [{ok, #{verdict := taken}} = antientropy_exchange:take(Exchange, Answer) || Answer <- Answers],
            {ok, _} = antientropy:put(Replica, 2, <<"own", Batch:16>>, <<>>),
            iolist_size([Asks | Answers]) + take_and_put(Exchange, Replica, Snapshot, Batch + 1)
    end.
