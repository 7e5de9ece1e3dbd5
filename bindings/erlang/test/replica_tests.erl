%% Versions, the journal and the tree of a replica.
-module(replica_tests).

-include_lib("eunit/include/eunit.hrl").

-import(support, [replica/0, replica/1, crowd/2, live/2, fill/2, key/1]).

put_and_get_test() ->
    Replica = replica(),
    ?assertEqual({ok, #{number => 0, counter => 1}}, antientropy:put(Replica, 1, <<"k">>, <<"one">>)),
    ?assertEqual({ok, #{number => 1, counter => 2}}, antientropy:put(Replica, 1, <<"k">>, <<"two">>, #{1 => 1})),
    ?assertEqual({ok, [live(#{1 => 2}, <<"two">>)]}, antientropy:get(Replica, <<"k">>)),
    ?assertEqual({ok, []}, antientropy:get(Replica, <<"other">>)).

context_as_pairs_test() ->
    Replica = replica(),
    {ok, _} = antientropy:put(Replica, 1, <<"k">>, <<"one">>, []),
    {ok, _} = antientropy:put(Replica, 2, <<"k">>, <<"two">>, [{1, 1}]),
    {ok, _} = antientropy:put(Replica, 2, <<"k">>, <<"three">>, [{2, 1}, {1, 1}]),
    ?assertEqual({ok, [live(#{1 => 1, 2 => 2}, <<"three">>)]}, antientropy:get(Replica, <<"k">>)).

iodata_as_a_value_test() ->
    Replica = replica(),
    {ok, _} = antientropy:put(Replica, 1, <<"k">>, ["mi", [<<"l">>], $k]),
    {ok, _} = antientropy:put(Replica, 1, <<"none">>, []),
    ?assertEqual({ok, <<"milk">>}, antientropy:value(Replica, <<"k">>, 0)),
    ?assertEqual({ok, <<>>}, antientropy:value(Replica, <<"none">>, 0)).

tombstone_test() ->
    Replica = replica(),
    {ok, _} = antientropy:put(Replica, 1, <<"k">>, tombstone),
    ?assertEqual({ok, [live(#{1 => 1}, tombstone)]}, antientropy:get(Replica, <<"k">>)),
    ?assertEqual({ok, tombstone}, antientropy:value(Replica, <<"k">>, 0)),
    {ok, _} = antientropy:put(Replica, 1, <<"k">>, <<>>, #{1 => 1}),
    ?assertEqual({ok, [live(#{1 => 2}, <<>>)]}, antientropy:get(Replica, <<"k">>)).

concurrent_versions_test() ->
    Replica = replica(),
    {ok, _} = antientropy:put(Replica, 1, <<"k">>, <<"one">>),
    ?assertEqual({ok, new}, antientropy:accept(Replica, <<"k">>, live(#{2 => 1}, <<"two">>))),
    ?assertEqual({ok, known}, antientropy:accept(Replica, <<"k">>, live([{2, 1}], <<"two">>))),
    [One, Two] = Versions = [live(#{1 => 1}, <<"one">>), live(#{2 => 1}, <<"two">>)],
    ?assertEqual({ok, Versions}, antientropy:get(Replica, <<"k">>)),
    ?assertEqual({ok, 2}, antientropy:count_versions(Replica, <<"k">>)),
    ?assertEqual({ok, One}, antientropy:read(Replica, <<"k">>, 0)),
    ?assertEqual({ok, Two}, antientropy:read(Replica, <<"k">>, 1)),
    ?assertEqual({ok, <<"one">>}, antientropy:value(Replica, <<"k">>, 0)),
    ?assertEqual({ok, <<"two">>}, antientropy:value(Replica, <<"k">>, 1)),
    ?assertEqual({ok, #{1 => 1}}, antientropy:clock(Replica, <<"k">>, 0)),
    ?assertEqual({ok, #{2 => 1}}, antientropy:clock(Replica, <<"k">>, 1)).

full_clock_test() ->
    Replica = replica(),
    Clock = maps:from_list([{Node, 1 bsl 63 + Node} || Node <- lists:seq(65_504, 65_535)]),
    {ok, new} = antientropy:accept(Replica, <<"k">>, live(Clock, <<"v">>)),
    ?assertEqual({ok, [live(Clock, <<"v">>)]}, antientropy:get(Replica, <<"k">>)),
    ?assertMatch({ok, #{clock := Clock}}, antientropy:entry(Replica, 0)),
    ?assertEqual({ok, Clock}, antientropy:clock(Replica, <<"k">>, 0)).

values_of_each_length_test() ->
    Replica = replica(),
    Lengths = [0, 1, 63, 64, 65, 4095, 4096, 4097, 8192, 65_535, 65_536],
    [
        begin
            Value = binary:copy(<<"v">>, Length),
            {ok, #{number := Number}} = antientropy:put(Replica, 1, key(Length), Value),
            ?assertEqual({ok, [live(#{1 => 1}, Value)]}, antientropy:get(Replica, key(Length))),
            ?assertEqual({ok, live(#{1 => 1}, Value)}, antientropy:read(Replica, key(Length), 0)),
            ?assertEqual({ok, Value}, antientropy:value(Replica, key(Length), 0)),
            ?assertMatch({ok, #{value := Value}}, antientropy:entry(Replica, Number))
        end
     || Length <- Lengths
    ].

keys_of_each_length_test() ->
    Replica = replica(),
    Keys = [binary:copy(<<"k">>, Length) || Length <- [1, 63, 64, 65, 254, 255]],
    [{ok, _} = antientropy:put(Replica, 1, Key, <<>>) || Key <- Keys],
    {ok, Found} = antientropy:keys(Replica),
    ?assertEqual(Keys, lists:sort(Found)),
    {ok, Entries} = antientropy:entries(Replica, 0),
    ?assertEqual(Keys, [Key || #{key := Key} <- Entries]).

row_of_the_page_test() ->
    Replica = replica(),
    {ok, _} = antientropy:put(Replica, 1, <<"a">>, <<"x">>),
    {ok, Row} = antientropy:row(Replica, <<"a">>),
    ?assertEqual(<<"00016100010001000100000000000000010000000178">>, support:hex(Row)),
    ?assertEqual({ok, <<>>}, antientropy:row(Replica, <<"b">>)).

great_row_test() ->
    Replica = replica(),
    Values = [binary:copy(<<Node>>, 65_536) || Node <- lists:seq(1, 64)],
    [{ok, _} = antientropy:put(Replica, Node, <<"great">>, Value) || <<Node, _/binary>> = Value <- Values],
    {ok, Row} = antientropy:row(Replica, <<"great">>),
    ?assert(byte_size(Row) > 64 * 65_536),
    {ok, Versions} = antientropy:get(Replica, <<"great">>),
    ?assertEqual(Values, [Value || #{value := Value} <- Versions]),
    Copy = replica(),
    ?assertEqual({ok, #{new => 64, known => 0}}, antientropy:load_rows(Copy, Row)),
    ?assertEqual({ok, Row}, antientropy:row(Copy, <<"great">>)).

keys_test() ->
    Replica = fill(replica(), 100),
    {ok, Keys} = antientropy:keys(Replica),
    ?assertEqual(lists:sort([key(Number) || Number <- lists:seq(1, 100)]), lists:sort(Keys)),
    ?assertEqual({ok, 100}, antientropy:fold_keys(fun(_, Count) -> Count + 1 end, 0, Replica)),
    {ok, #{leaf := Leaf}} = antientropy:place(2, 0, key(7)),
    {ok, KeysOfLeaf} = antientropy:keys(Replica, Leaf),
    ?assert(lists:member(key(7), KeysOfLeaf)),
    ?assertEqual(lists:usort(KeysOfLeaf), KeysOfLeaf),
    ?assertEqual({ok, hd(KeysOfLeaf)}, antientropy:key_after(Replica, Leaf, <<>>)).

bytes_test() ->
    Replica = replica(),
    ?assertEqual({ok, #{rows => 0, journal => 0, sessions => 0}}, antientropy:bytes(Replica)),
    {ok, _} = antientropy:put(Replica, 1, <<"cart">>, <<"milk">>),
    {ok, _} = antientropy:put(Replica, 1, <<"cart">>, <<"milk, eggs">>, #{1 => 1, 7 => 3}),
    {ok, new} = antientropy:accept(Replica, <<"list">>, live(#{2 => 5}, tombstone)),
    {Rows, Journal} = lengths(Replica),
    ?assertEqual(8 + 10 + 14 + 20 + 4 + 10, Journal),
    ?assertNotEqual(Journal, Rows),
    ?assertEqual({ok, #{rows => Rows, journal => Journal, sessions => 0}}, antientropy:bytes(Replica)),
    {ok, Snapshot} = antientropy:snapshot(Replica),
    {ok, _} = antientropy:put(Replica, 1, <<"gift">>, <<"tea">>),
    {Later, _} = lengths(Replica),
    ?assertEqual({ok, #{rows => Later, journal => Journal + 17, sessions => 0}}, antientropy:bytes(Replica)),
    ?assertEqual({ok, Rows}, antientropy_snapshot:bytes(Snapshot)),
    ?assert(Later > Rows),
    {ok, Renewed} = antientropy:renew(Replica),
    ?assertEqual({Later, Journal - 1}, lengths(Renewed)),
    ?assertEqual({ok, #{rows => Later, journal => Journal - 1, sessions => 0}}, antientropy:bytes(Renewed)).

%% The lengths of the rows that a replica holds, in all, and of its entries, with 10 bytes for each pair of a clock.
lengths(Replica) ->
    {_, Entries, Rows} = support:state(Replica),
    Length = fun(#{key := Key, clock := Clock, value := Value}) ->
        byte_size(Key) + length_of(Value) + 10 * map_size(Clock)
    end,
    {lists:sum([byte_size(Row) || {ok, Row} <- Rows]), lists:sum([Length(Entry) || Entry <- Entries])}.

length_of(tombstone) -> 0;
length_of(Value) -> byte_size(Value).

entries_test() ->
    Replica = replica(),
    {ok, _} = antientropy:put(Replica, 1, <<"a">>, <<"x">>),
    {ok, new} = antientropy:accept(Replica, <<"b">>, live(#{2 => 3}, tombstone)),
    First = #{number => 0, key => <<"a">>, clock => #{1 => 1}, value => <<"x">>, source => put},
    Second = #{number => 1, key => <<"b">>, clock => #{2 => 3}, value => tombstone, source => copy},
    ?assertEqual({ok, [First, Second]}, antientropy:entries(Replica, 0)),
    ?assertEqual({ok, [Second]}, antientropy:entries(Replica, 1)),
    ?assertEqual({ok, []}, antientropy:entries(Replica, 2)),
    ?assertEqual({ok, Second}, antientropy:entry(Replica, 1)),
    ?assertEqual({ok, 1}, antientropy:fold_entries(fun(#{number := Last}, _) -> Last end, none, Replica, 0)),
    ?assertEqual({ok, 3}, antientropy:top_counter(Replica, 2, <<"b">>)),
    ?assertEqual({ok, 0}, antientropy:top_counter(Replica, 2, <<"b">>, 1)).

%% The example of docs/FORMATS.md. An entry of format 1 has no kind.
packed_entries_test() ->
    [
        begin
            Replica = replica(#{format => Format}),
            {ok, _} = antientropy:put(Replica, 1, <<"a">>, <<"x">>),
            {ok, new} = antientropy:accept(Replica, <<"b">>, live(#{2 => 3, 65_535 => 1}, <<>>)),
            {ok, #{bytes := Bytes} = Packed} = antientropy:packed_entries(Replica, 0),
            ?assertMatch(#{format := Format, from := 0, next := 2}, Packed),
            Length = byte_size(Text),
            ?assertMatch(<<Text:Length/binary, _/binary>>, support:hex(Bytes)),
            ?assertEqual(antientropy:entries(Replica, 0), {ok, antientropy:unpack_entries(Packed)}),
            [_, Second] = antientropy:unpack_entries(Packed),
            ?assertMatch(#{number := 1, source := copy, clock := #{2 := 3, 65_535 := 1}}, Second),
            None = #{format => Format, from => 2, next => 2, bytes => <<>>},
            ?assertEqual({ok, None}, antientropy:packed_entries(Replica, 2)),
            ?assertEqual([], antientropy:unpack_entries(None))
        end
     || {Format, Text} <- [
            {1, <<"00000161000101000100000000000000010000000178">>},
            {2, <<"0000016100010001000100000000000000010000000178">>}
        ]
    ].

%% Entries that don't fit in one call.
many_entries_test() ->
    Replica = replica(),
    Values = [binary:copy(<<Number>>, 65_536) || Number <- lists:seq(1, 40)],
    [{ok, _} = antientropy:put(Replica, 1, <<"k", Number>>, Value) || <<Number, _/binary>> = Value <- Values],
    {ok, Entries} = antientropy:entries(Replica, 0),
    ?assertEqual(Values, [Value || #{value := Value} <- Entries]),
    ?assertEqual(lists:seq(0, 39), [Number || #{number := Number} <- Entries]),
    {ok, #{next := Next, bytes := Bytes}} = antientropy:packed_entries(Replica, 0),
    ?assertEqual({15, true}, {Next, byte_size(Bytes) =< 1 bsl 20}).

%% A log that reads on at its position has all entries, whatever is renewed between.
position_test() ->
    Replica = replica(),
    Contexts = [#{} | [#{1 => Counter} || Counter <- lists:seq(1, 199)]],
    [{ok, _} = antientropy:put(Replica, 1, <<"cart">>, <<"milk">>, Context) || Context <- Contexts],
    {ok, #{next := 200}} = antientropy:packed_entries(Replica, 0),
    {ok, Renewed} = antientropy:renew(Replica),
    ?assertMatch({ok, [#{number := 199, key := <<"cart">>, source := copy}]}, antientropy:entries(Renewed, 199)),
    ?assertEqual({ok, []}, antientropy:entries(Renewed, 200)),
    {ok, #{number := 200}} = antientropy:put(Renewed, 1, <<"gift">>, <<"wrapped">>),
    ?assertMatch({ok, [#{number := 200, key := <<"gift">>, source := put}]}, antientropy:entries(Renewed, 200)),
    {ok, Again} = antientropy:renew(Renewed),
    {ok, #{number := 201}} = antientropy:put(Again, 1, <<"tea">>, <<"green">>),
    ?assertMatch({ok, [#{number := 201, key := <<"tea">>}]}, antientropy:entries(Again, 201)),
    {ok, Snapshot} = antientropy:snapshot(Again),
    ?assertMatch({ok, #{entries := 202}}, antientropy_snapshot:info(Snapshot)),
    ?assertMatch({ok, #{entries := 202, first := 199, front := 202}}, antientropy:count(Again)),
    ?assertEqual({ok, 3}, antientropy:fold_entries(fun(_, Count) -> Count + 1 end, 0, Again, 199)).

two_clients_test() ->
    Replica = replica(),
    Both = #{1 => 1, 2 => 1},
    {ok, _} = antientropy:put(Replica, 1, <<"cart">>, <<"milk">>),
    {ok, new} = antientropy:accept(Replica, <<"cart">>, live(#{2 => 1}, <<"eggs">>)),
    {ok, _} = antientropy:put(Replica, 1, <<"cart">>, <<"bread">>, #{1 => 1}),
    support:refused(stale_context, Replica, fun() -> antientropy:put(Replica, 1, <<"cart">>, <<"tea">>, Both) end),
    {ok, _} = antientropy:put_unread(Replica, 1, <<"cart">>, <<"tea">>, Both),
    ?assertEqual({ok, [live(#{1 => 2, 2 => 1}, <<"tea">>)]}, antientropy:get(Replica, <<"cart">>)).

an_entry_is_a_version_test() ->
    Replica = replica(),
    {ok, _} = antientropy:put(Replica, 1, <<"a">>, <<"x">>),
    {ok, Entry} = antientropy:entry(Replica, 0),
    Copy = replica(),
    ?assertEqual({ok, new}, antientropy:accept(Copy, <<"a">>, Entry)),
    ?assertEqual(antientropy:root(Replica), antientropy:root(Copy)).

counts_and_rehash_test() ->
    Replica = replica(#{limit => 1000}),
    ok = antientropy:rehash(Replica),
    Clean = #{entries => 0, limit => 1000, dirty => 0, sessions => 0, open_sessions => 0, first => 0, front => 0},
    ?assertEqual({ok, Clean}, antientropy:count(Replica)),
    {ok, _} = antientropy:put(Replica, 1, <<"a">>, <<"x">>),
    ?assertEqual({ok, Clean#{entries := 1, dirty := 4}}, antientropy:count(Replica)).

rehash_some_test() ->
    Replica = replica(),
    ok = antientropy:rehash(Replica),
    {ok, _} = antientropy:put(Replica, 1, <<"a">>, <<"x">>),
    ?assertEqual({ok, 4}, antientropy:rehash_some(Replica, 0)),
    ?assertEqual({ok, 3}, antientropy:rehash_some(Replica, 1)),
    ?assertEqual({ok, 0}, rehash_all(Replica, 3)),
    ?assertMatch({ok, #{dirty := 0}}, antientropy:count(Replica)).

%% Rehashes one node after another, in at most this number of turns.
rehash_all(Replica, Turns) ->
    case antientropy:rehash_some(Replica, 1) of
        {ok, Left} when Left > 0, Turns > 1 -> rehash_all(Replica, Turns - 1);
        Result -> Result
    end.

renew_test() ->
    Replica = replica(),
    {ok, _} = antientropy:put(Replica, 1, <<"a">>, <<"x">>),
    {ok, _} = antientropy:put(Replica, 1, <<"a">>, <<"y">>, #{1 => 1}),
    {ok, Renewed} = antientropy:renew(Replica, 5),
    ?assertMatch({ok, #{entries := 2, first := 1, front := 1, limit := 5}}, antientropy:count(Renewed)),
    ?assertEqual(antientropy:root(Replica), antientropy:root(Renewed)),
    ?assertEqual({ok, #{format => 2, bits => 0, range => 0, entries => 2}}, antientropy:about(Renewed)),
    {ok, Large} = antientropy:renew(Renewed),
    ?assertMatch({ok, #{limit := 1_000_000}}, antientropy:count(Large)).

migrate_test() ->
    Replica = replica(#{format => 1, limit => 10}),
    {ok, _} = antientropy:put(Replica, 1, <<"a">>, <<"x">>),
    ?assertMatch({ok, #{format := 1}}, antientropy:info(Replica)),
    ok = antientropy:migrate(Replica),
    ?assertMatch({ok, #{format := 2}}, antientropy:info(Replica)),
    {ok, <<Start:4/binary, _/binary>>} = antientropy:root(Replica),
    ?assertEqual(<<"22ba8eee">>, support:hex(Start)).

rows_of_before_a_migration_test() ->
    [First, Again] = [replica(#{format => 1}) || _ <- [first, again]],
    fill(First, 50),
    {ok, Keys} = antientropy:keys(First),
    Rows = [Row || Key <- lists:sort(Keys), {ok, Row} <- [antientropy:row(First, Key)]],
    Second = replica(),
    [?assertEqual({ok, #{new => 50, known => 0}}, antientropy:load_format(To, 1, Rows)) || To <- [Second, Again]],
    ?assertEqual(antientropy:root(First), antientropy:root(Again)),
    support:refused(other_format, Again, fun() -> antientropy:load_format(Again, 2, Rows) end),
    ok = antientropy:migrate(First),
    ?assertEqual(antientropy:root(First), antientropy:root(Second)).

options_test() ->
    Replica = replica(#{format => 1, bits => 4, range => 9}),
    ?assertEqual({ok, #{format => 1, bits => 4, range => 9}}, antientropy:info(Replica)),
    ?assertEqual({ok, #{format => 1, bits => 4, range => 9, entries => 0}}, antientropy:about(Replica)),
    ?assertMatch({ok, #{limit := 1_000_000}}, antientropy:count(Replica)),
    {ok, Default} = antientropy:new(),
    ?assertEqual({ok, #{format => 2, bits => 0, range => 0}}, antientropy:info(Default)).

crowded_key_test() ->
    Replica = replica(),
    crowd(Replica, <<"k">>),
    {ok, Versions} = antientropy:get(Replica, <<"k">>),
    ?assertEqual([live(#{Node => 1}, <<Node>>) || Node <- lists:seq(1, 64)], Versions).
