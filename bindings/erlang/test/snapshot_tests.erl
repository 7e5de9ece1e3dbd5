%% Snapshots.
-module(snapshot_tests).

-include_lib("eunit/include/eunit.hrl").

-import(support, [replica/0, fill/2, key/1]).

%% Each test has a replica with 50 keys, and its snapshot.
snapshots_test_() ->
    {foreach, fun setup/0, [
        {with, [Test]}
     || Test <- [
            fun snapshot/1,
            fun rows/1,
            fun shared_snapshot/1,
            fun gone_and_bad_message/1,
            fun empty/1,
            fun wrong_types/1
        ]
    ]}.

setup() ->
    Replica = fill(replica(), 50),
    {ok, Snapshot} = antientropy:snapshot(Replica),
    {Replica, Snapshot}.

snapshot({A, Snapshot}) ->
    {ok, Root} = antientropy_snapshot:root(Snapshot),
    {ok, Offer} = antientropy_snapshot:offer(Snapshot, 7),
    ?assertEqual(32, byte_size(Root)),
    ?assertEqual({ok, #{number => 7, format => 2, range => 0, root => Root}}, antientropy:read_offer(Offer)),
    Info = #{format => 2, bits => 0, range => 0, entries => 50, root => Root},
    ?assertEqual({ok, Info}, antientropy_snapshot:info(Snapshot)),
    {ok, _} = antientropy:put(A, 1, <<"later">>, <<>>),
    ?assertNotEqual({ok, Root}, antientropy:root(A)),
    ok = antientropy:close(A),
    {ok, Other} = antientropy_snapshot:offer(Snapshot, 1 bsl 32 - 1),
    ?assertMatch({ok, #{number := 16#FFFFFFFF, root := Root}}, antientropy:read_offer(Other)).

rows({A, Snapshot}) ->
    B = replica(),
    {ok, #{leaf := Leaf}} = antientropy:place(2, 0, key(3)),
    {ok, Rows} = antientropy_snapshot:rows(Snapshot, Leaf),
    {ok, Row} = antientropy:row(A, key(3)),
    {ok, Keys} = antientropy:keys(A, Leaf),
    ?assertNotEqual(nomatch, binary:match(Rows, Row)),
    ?assertEqual({ok, #{new => length(Keys), known => 0}}, antientropy:load_rows(B, Rows)),
    ?assertEqual({ok, #{new => 0, known => length(Keys)}}, antientropy:load_rows(B, Rows)).

%% It outlives the first one, and has the rows of that moment.
shared_snapshot({A, Snapshot}) ->
    {ok, #{root := Root} = Info} = antientropy_snapshot:info(Snapshot),
    {ok, Keys} = antientropy:keys(A),
    {ok, #{leaf := Leaf}} = antientropy:place(2, 0, key(3)),
    {ok, Shared} = antientropy_snapshot:share(Snapshot),
    ok = antientropy_snapshot:close(Snapshot),
    [?assertEqual(antientropy:row(A, Key), antientropy_snapshot:row(Shared, Key)) || Key <- Keys],
    {ok, _} = antientropy:put(A, 1, <<"later">>, <<>>),
    ?assertEqual({ok, Keys}, antientropy_snapshot:keys(Shared)),
    ?assertEqual({ok, 50}, antientropy_snapshot:fold_keys(fun(_, Count) -> Count + 1 end, 0, Shared)),
    ?assertEqual(antientropy:keys(A, Leaf), antientropy_snapshot:keys(Shared, Leaf)),
    ?assertEqual({ok, Info}, antientropy_snapshot:info(Shared)),
    ?assertEqual({ok, Root}, antientropy_snapshot:digest(Shared, 0, 0)),
    [{ok, Here}, {ok, There}] = [antientropy_snapshot:digest(Shared, 3, Index) || Index <- [Leaf, Leaf bxor 1]],
    ?assertNotEqual(Here, There),
    ?assertEqual({ok, <<>>}, antientropy_snapshot:row(Shared, <<"later">>)),
    support:refused(bad_key, A, fun() -> antientropy_snapshot:row(Shared, <<>>) end),
    Longest = binary:copy(<<255>>, 255),
    support:refused(no_version, A, fun() -> antientropy_snapshot:key_after(Shared, Leaf, Longest) end),
    [
        support:refused(bad_key, A, fun() -> antientropy_snapshot:key_after(Shared, Leaf, binary:copy(Longest, N)) end)
     || N <- [2, 1000]
    ],
    support:refused(bad_message, A, fun() -> antientropy_snapshot:keys(Shared, 4096) end),
    [
        support:refused(bad_message, A, fun() -> antientropy_snapshot:digest(Shared, Depth, Index) end)
     || {Depth, Index} <- [{3, 4096}, {4, 0}, {0, 1 bsl 32}]
    ].

gone_and_bad_message({A, Snapshot}) ->
    Ask = <<2, 7:32, 0, 0:16>>,
    Short = binary:part(Ask, 0, byte_size(Ask) - 1),
    support:refused(gone, A, fun() -> antientropy_snapshot:serve(Snapshot, 8, Ask) end),
    support:refused(bad_message, A, fun() -> antientropy_snapshot:serve(Snapshot, 7, Short) end),
    [
        support:refused(bad_message, A, fun() -> antientropy_snapshot:rows(Snapshot, Leaf) end)
     || Leaf <- [4096, 65_536, 1 bsl 32]
    ].

empty({_, Snapshot}) ->
    ok = antientropy_snapshot:close(Snapshot),
    ok = antientropy_snapshot:close(Snapshot),
    [
        ?assertEqual({error, empty}, Result)
     || Result <- [
            antientropy_snapshot:root(Snapshot),
            antientropy_snapshot:info(Snapshot),
            antientropy_snapshot:bytes(Snapshot),
            antientropy_snapshot:offer(Snapshot, 1),
            antientropy_snapshot:serve(Snapshot, 1, <<>>),
            antientropy_snapshot:rows(Snapshot, 0),
            antientropy_snapshot:share(Snapshot),
            antientropy_snapshot:row(Snapshot, key(3)),
            antientropy_snapshot:key_after(Snapshot, 0, <<>>),
            antientropy_snapshot:keys(Snapshot),
            antientropy_snapshot:digest(Snapshot, 0, 0),
            antientropy_snapshot:save(Snapshot, standard_io)
        ]
    ].

wrong_types({_, Snapshot}) ->
    [
        support:badarg(Call)
     || Call <- [
            fun() -> antientropy_snapshot:offer(Snapshot, 1 bsl 32) end,
            fun() -> antientropy_snapshot:serve(Snapshot, 7, none) end,
            fun() -> antientropy_snapshot:rows(Snapshot, -1) end,
            fun() -> antientropy_snapshot:row(Snapshot, none) end,
            fun() -> antientropy_snapshot:key_after(Snapshot, -1, <<>>) end,
            fun() -> antientropy_snapshot:key_after(Snapshot, 0, none) end,
            fun() -> antientropy_snapshot:digest(Snapshot, -1, 0) end,
            fun() -> antientropy_snapshot:digest(Snapshot, 0, none) end,
            fun() -> antientropy_snapshot:share(none) end
        ]
    ].
