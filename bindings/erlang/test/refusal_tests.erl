%% The refusals of a replica, and arguments of wrong types.
-module(refusal_tests).

-include_lib("eunit/include/eunit.hrl").

-import(support, [replica/0, replica/1, crowd/2, live/2, badarg/1]).

%% Each test has a replica of 70 entries with one key.
refusals_test_() ->
    {foreach, fun setup/0, fun antientropy:close/1, [
        {with, [Test]}
     || Test <- [
            fun bad_clock/1,
            fun clock_full/1,
            fun counter_full/1,
            fun bad_key/1,
            fun bad_value/1,
            fun stale_context/1,
            fun crowded/1,
            fun journal_full/1,
            fun other_range/1,
            fun dirty/1,
            fun bad_ring/1,
            fun row_broken/1,
            fun bad_message/1,
            fun no_version/1,
            fun bad_position/1,
            fun empty/1,
            fun wrong_types/1,
            fun long_values/1,
            fun long_clocks/1,
            fun long_keys/1,
            fun numbers_that_c_cannot_hold/1,
            fun other_handles/1
        ]
    ]}.

setup() ->
    Replica = replica(#{limit => 70}),
    {ok, _} = antientropy:put(Replica, 1, <<"k">>, <<"v">>),
    Replica.

%% The replica refuses a call, and is left unchanged.
refused(Name, Replica, Function, Args) ->
    support:refused(Name, Replica, fun() -> apply(antientropy, Function, Args) end).

bad_clock(Replica) ->
    refused(bad_clock, Replica, put, [Replica, 0, <<"k">>, <<>>]),
    [
        begin
            refused(bad_clock, Replica, put, [Replica, Node, <<"other">>, <<>>]),
            refused(bad_clock, Replica, put_unread, [Replica, Node, <<"other">>, <<>>, #{}]),
            refused(bad_clock, Replica, top_counter, [Replica, Node, <<"k">>])
        end
     || Node <- [0, 65_536, 65_537, 1 bsl 32]
    ],
    refused(bad_clock, Replica, put, [Replica, 1, <<"k">>, <<>>, [{1, 1}, {1, 2}]]),
    refused(bad_clock, Replica, accept, [Replica, <<"k">>, live(#{65_536 => 1}, <<>>)]),
    refused(bad_clock, Replica, compare, [#{1 => 0}, #{}]),
    refused(bad_clock, Replica, compare, [#{}, #{1 => 0}]),
    refused(bad_clock, Replica, merge, [[#{1 => 1}, #{0 => 1}, #{2 => 1}]]).

clock_full(Replica) ->
    Full = maps:from_list([{Node, 1} || Node <- lists:seq(1, 32)]),
    refused(clock_full, Replica, put, [Replica, 33, <<"k">>, <<>>, Full]),
    refused(clock_full, Replica, put, [Replica, 33, <<"k">>, <<>>, Full#{33 => 1}]),
    refused(clock_full, Replica, put, [Replica, 33, <<"k">>, <<>>, maps:to_list(Full#{33 => 1})]),
    refused(clock_full, Replica, accept, [Replica, <<"k">>, live(Full#{33 => 1}, <<>>)]),
    refused(clock_full, Replica, compare, [Full, Full#{33 => 1}]),
    refused(clock_full, Replica, merge, [[Full, #{33 => 1}]]),
    refused(bad_clock, Replica, merge, [[Full#{33 => 1, 34 => 0}]]).

counter_full(Replica) ->
    refused(counter_full, Replica, put, [Replica, 1, <<"k">>, <<>>, #{1 => 1 bsl 64 - 1}]).

bad_key(Replica) ->
    refused(bad_key, Replica, put, [Replica, 1, <<>>, <<>>]),
    refused(bad_key, Replica, accept, [Replica, binary:copy(<<"k">>, 256), live(#{1 => 1}, <<>>)]),
    refused(bad_key, Replica, row, [Replica, <<>>]),
    refused(bad_key, Replica, place, [2, 0, <<>>]).

bad_value(Replica) ->
    refused(bad_value, Replica, put, [Replica, 1, <<"k">>, binary:copy(<<0>>, 65_537), #{1 => 1}]),
    First = replica(#{format => 1}),
    refused(bad_value, First, put, [First, 1, <<"k">>, tombstone]),
    refused(bad_value, First, put, [First, 1, <<"k">>, binary:copy(<<0>>, 4097)]).

stale_context(Replica) ->
    refused(stale_context, Replica, put, [Replica, 1, <<"k">>, <<>>]).

crowded(Replica) ->
    crowd(Replica, <<"crowded">>),
    refused(crowded, Replica, put, [Replica, 65, <<"crowded">>, <<>>]),
    refused(crowded, Replica, accept, [Replica, <<"crowded">>, live(#{65 => 1}, <<>>)]).

journal_full(Replica) ->
    support:fill(Replica, 69),
    refused(journal_full, Replica, put, [Replica, 1, <<"other">>, <<>>]),
    refused(journal_full, Replica, renew, [Replica, 1]).

other_range(Replica) ->
    {ok, #{range := Range}} = antientropy:place(2, 1, <<"k">>),
    Other = replica(#{bits => 1, range => 1 - Range}),
    {ok, Row} = antientropy:row(Replica, <<"k">>),
    refused(other_range, Other, put, [Other, 1, <<"k">>, <<>>]),
    refused(other_range, Other, load_rows, [Other, Row]).

dirty(Replica) ->
    refused(dirty, Replica, snapshot, [Replica, #{rehash => false}]),
    refused(dirty, Replica, moment, [Replica]).

bad_ring(Replica) ->
    [
        begin
            refused(bad_ring, Replica, new, [Options]),
            refused(bad_ring, Replica, new_seeded, [Options, 1, 2])
        end
     || Options <- [
            #{format => 3},
            #{format => 258},
            #{bits => 9},
            #{bits => 1, range => 2},
            #{limit => 0},
            #{limit => 1 bsl 32}
        ]
    ],
    refused(bad_ring, Replica, place, [3, 0, <<"k">>]),
    refused(bad_ring, Replica, renew, [Replica, 0]),
    refused(bad_ring, Replica, load_format, [Replica, 3, <<>>]).

row_broken(Replica) ->
    {ok, Row} = antientropy:row(Replica, <<"k">>),
    refused({row_broken, byte_size(Row)}, Replica, load_rows, [Replica, [Row, 0]]),
    refused({row_broken, byte_size(Row)}, Replica, load_format, [Replica, 2, [Row, 0]]).

bad_message(Replica) ->
    refused(bad_message, Replica, read_offer, [<<>>]),
    [refused(bad_message, Replica, keys, [Replica, Leaf]) || Leaf <- [4096, 65_536, 1 bsl 32]],
    {ok, _} = antientropy:root(Replica),
    refused(bad_clock, Replica, exchange, [Replica, 65_537, <<>>, #{}]),
    refused(bad_message, Replica, exchange, [Replica, 2, <<>>, #{}]),
    refused(bad_message, Replica, sync, [Replica, 2, <<>>, fun(_) -> [] end]).

no_version(Replica) ->
    refused(no_version, Replica, read, [Replica, <<"k">>, 1]),
    refused(no_version, Replica, value, [Replica, <<"k">>, 1]),
    refused(no_version, Replica, clock, [Replica, <<"k">>, 1]),
    refused(no_version, Replica, entry, [Replica, 1]),
    {ok, #{leaf := Leaf}} = antientropy:place(2, 0, <<"k">>),
    refused(no_version, Replica, key_after, [Replica, Leaf, <<"k">>]).

%% Numbers over the count, and numbers before the last renewal, except the first entry's.
bad_position(Replica) ->
    {ok, #{counter := 2}} = antientropy:put(Replica, 1, <<"k">>, <<"w">>, #{1 => 1}),
    {ok, new} = antientropy:accept(Replica, <<"k">>, live(#{2 => 1}, <<"other">>)),
    {ok, Renewed} = antientropy:renew(Replica),
    {ok, _} = antientropy:put(Renewed, 1, <<"other">>, <<>>),
    [
        begin
            refused(bad_position, Of, entries, [Of, From]),
            refused(bad_position, Of, packed_entries, [Of, From])
        end
     || {Of, From} <- [{Replica, 4}, {Renewed, 0}, {Renewed, 2}, {Renewed, 5}, {Renewed, 1 bsl 64 - 1}]
    ],
    [{ok, _} = antientropy:entries(Renewed, From) || From <- [1, 3, 4]].

empty(Replica) ->
    ok = antientropy:close(Replica),
    ok = antientropy:close(Replica),
    [
        ?assertEqual({error, empty}, apply(antientropy, Function, [Replica | Args]))
     || {Function, Args} <- [
            {put, [1, <<"k">>, <<>>]},
            {put_unread, [1, <<"k">>, <<>>, #{}]},
            {top_counter, [1, <<"k">>]},
            {accept, [<<"k">>, live(#{1 => 1}, <<>>)]},
            {get, [<<"k">>]},
            {read, [<<"k">>, 0]},
            {count_versions, [<<"k">>]},
            {value, [<<"k">>, 0]},
            {clock, [<<"k">>, 0]},
            {row, [<<"k">>]},
            {key_after, [0, <<>>]},
            {keys, []},
            {keys, [0]},
            {entry, [0]},
            {entries, [0]},
            {packed_entries, [0]},
            {about, []},
            {info, []},
            {count, []},
            {bytes, []},
            {rehash, []},
            {rehash_some, [1]},
            {hold, []},
            {drop_moment, []},
            {hash_moment, [1]},
            {moment, []},
            {snapshot, []},
            {snapshot, [#{rehash => false}]},
            {root, []},
            {renew, []},
            {renew_in_place, []},
            {renewal, [100]},
            {keep_renewed, []},
            {migrate, []},
            {load_rows, [<<>>]},
            {load_format, [2, <<>>]},
            {save, [standard_io]},
            {exchange, [1, <<>>, #{}]},
            {drop_sessions, []},
            {sync, [1, <<>>, fun(_) -> [] end]}
        ]
    ].

wrong_types(Replica) ->
    Version = live(#{}, <<>>),
    [
        badarg(fun() -> apply(antientropy, Function, Args) end)
     || {Function, Args} <- [
            {put, [Replica, 1, "k", <<>>]},
            {put, [Replica, 1, k, <<>>]},
            {put, [Replica, 1, <<1:7>>, <<>>]},
            {put, [Replica, 1, <<"k">>, none]},
            {put, [Replica, 1, <<"k">>, [256]]},
            {put, [Replica, 1, <<"k">>, <<1:9>>]},
            {put, [Replica, 1, <<"k">>, <<>>, 5]},
            {put, [Replica, 1, <<"k">>, <<>>, [{1, 2, 3}]]},
            {put, [Replica, 1, <<"k">>, <<>>, [{1, 2} | {3, 4}]]},
            {put, [Replica, 1, <<"k">>, <<>>, #{a => 1}]},
            {put, [Replica, "1", <<"k">>, <<>>]},
            {put, [make_ref(), 1, <<"k">>, <<>>]},
            {accept, [Replica, <<"k">>, maps:remove(clock, Version)]},
            {accept, [Replica, <<"k">>, maps:remove(value, Version)]},
            {accept, [Replica, <<"k">>, <<>>]},
            {compare, [#{}, none]},
            {compare, [none, #{}]},
            {merge, [[none]]},
            {new, [#{size => 1}]},
            {new, [[]]},
            {new, [#{limit => none}]},
            {snapshot, [Replica, #{rehash => none}]},
            {snapshot, [Replica, [rehash]]},
            {exchange, [Replica, 1, none, #{}]},
            {exchange, [Replica, 1, <<>>, #{most => 1}]},
            {exchange, [Replica, 1, <<>>, #{lost => -1}]},
            {hash_moment, [Replica, none]},
            {sync, [Replica, 1, <<>>, none]},
            {entries, [Replica, none]},
            {entries, [Replica, -1]},
            {packed_entries, [Replica, none]},
            {unpack_entries, [#{}]},
            {unpack_entries, [#{format => 3, from => 0, next => 0, bytes => <<>>}]},
            {unpack_entries, [#{format => 2, from => 0, next => 1, bytes => <<0, 1:16, "k">>}]},
            {load_rows, [Replica, none]}
        ]
    ],
    long_clocks_of_wrong_types(Replica),
    ?assertMatch({ok, #{entries := 1}}, antientropy:count(Replica)).

long_clocks_of_wrong_types(Replica) ->
    Pairs = [{Node, 1} || Node <- lists:seq(1, 100)],
    [
        badarg(fun() -> antientropy:put(Replica, 1, <<"k">>, <<>>, Clock) end)
     || Clock <- [Pairs ++ [none], maps:from_list([{none, 1} | Pairs])]
    ].

%% Causes that are tested before the length of a value are found, however long it is.
long_values(Replica) ->
    Great = lists:duplicate(1000, lists:duplicate(20_000, $v)),
    [
        begin
            refused(bad_value, Replica, put, [Replica, 1, <<"new">>, Value]),
            refused(bad_value, Replica, accept, [Replica, <<"new">>, live(#{2 => 1}, Value)]),
            refused(bad_clock, Replica, put, [Replica, 0, <<"new">>, Value]),
            refused(clock_full, Replica, put, [Replica, 1, <<"new">>, Value, pairs(33)]),
            refused(bad_key, Replica, put, [Replica, 1, <<>>, Value])
        end
     || Value <- [Great, [<<"v">> | Great], [[], [Great]], iolist_to_binary(Great), [iolist_to_binary(Great)]]
    ],
    badarg(fun() -> antientropy:put(Replica, 1, <<"new">>, [256 | Great]) end),
    badarg(fun() -> antientropy:put(Replica, 1, <<"new">>, [none | Great]) end),
    [
        begin
            {ok, _} = antientropy:put(Replica, 1, <<"new", Place>>, Value),
            Bytes = iolist_to_binary(Value),
            ?assertMatch({ok, [#{value := Bytes}]}, antientropy:get(Replica, <<"new", Place>>))
        end
     || {Place, Value} <- lists:enumerate([
            lists:duplicate(65_536, $v),
            [lists:duplicate(65_535, [[], <<>>]) | <<"v">>],
            [[lists:duplicate(32_768, $v) | binary:copy(<<"v">>, 32_767)], <<"v">>],
            lists:foldl(fun(Byte, Nested) -> [Nested, Byte rem 256] end, <<>>, lists:seq(1, 1000)),
            lists:foldl(fun(Byte, Nested) -> [Byte rem 256 | Nested] end, <<"end">>, lists:seq(1, 5000))
        ])
    ],
    refused(bad_value, Replica, put, [Replica, 1, <<"other">>, lists:duplicate(65_537, $v)]),
    refused({row_broken, 0}, Replica, load_rows, [Replica, Great]),
    refused(bad_message, Replica, read_offer, [Great]).

%% Returns pairs of the nodes 1 to `Last', with a counter of 1.
pairs(Last) ->
    [{Node, 1} || Node <- lists:seq(1, Last)].

%% Pairs that are more than all nodes aren't a clock. Fewer may be too many for a clock.
long_clocks(Replica) ->
    Other = live(#{1 => 1}, <<>>),
    [
        begin
            refused(Name, Replica, put, [Replica, 1, <<"k">>, <<>>, Clock]),
            refused(Name, Replica, accept, [Replica, <<"k">>, Other#{clock := Clock}]),
            refused(Name, Replica, compare, [Clock, #{}]),
            refused(Name, Replica, merge, [[#{}, Clock]])
        end
     || {Name, Pairs} <- [
            {clock_full, pairs(33)},
            {clock_full, pairs(65_535)},
            {bad_clock, pairs(65_536)},
            {bad_clock, pairs(200_000)},
            {bad_clock, [{0, 1} | pairs(65_535)]}
        ],
        Clock <- [Pairs, maps:from_list(Pairs)]
    ],
    refused(bad_clock, Replica, put, [Replica, 1, <<"k">>, <<>>, lists:duplicate(2_000_000, {1, 1})]),
    badarg(fun() -> antientropy:put(Replica, 1, <<"k">>, <<>>, [{1, 1}, none | pairs(200_000)]) end),
    badarg(fun() -> antientropy:put(Replica, 1, <<"k">>, <<>>, pairs(2000) ++ {1, 1}) end).

long_keys(Replica) ->
    Key = binary:copy(<<"k">>, 20_000_000),
    refused(bad_key, Replica, put, [Replica, 1, Key, <<>>]),
    refused(bad_key, Replica, accept, [Replica, Key, live(#{1 => 1}, <<>>)]),
    refused(bad_key, Replica, row, [Replica, Key]),
    refused(bad_key, Replica, place, [2, 0, Key]),
    refused(no_version, Replica, read, [Replica, Key, 0]),
    ?assertEqual({ok, []}, antientropy:get(Replica, Key)),
    ?assertEqual({ok, 0}, antientropy:top_counter(Replica, 1, Key)).

numbers_that_c_cannot_hold(Replica) ->
    [
        badarg(fun() -> apply(antientropy, Function, Args) end)
     || {Function, Args} <- [
            {put, [Replica, 1 bsl 64, <<"k">>, <<>>]},
            {put, [Replica, -1, <<"k">>, <<>>]},
            {put, [Replica, 1, <<"k">>, <<>>, #{1 => 1 bsl 64}]},
            {put, [Replica, 1, <<"k">>, <<>>, #{-1 => 1}]},
            {read, [Replica, <<"k">>, -1]},
            {entry, [Replica, 1 bsl 64]},
            {keys, [Replica, 1 bsl 64]},
            {exchange, [Replica, -1, <<>>, #{}]},
            {exchange, [Replica, 1, <<>>, #{bytes => 1 bsl 64}]},
            {hash_moment, [Replica, -1]},
            {new, [#{limit => 1 bsl 64}]},
            {new, [#{bits => -1}]},
            {name, [1 bsl 32]}
        ]
    ].

other_handles(Replica) ->
    {ok, Snapshot} = antientropy:snapshot(Replica),
    {ok, Hints} = antientropy_hints:new(),
    {ok, Slots} = antientropy_slots:new(1, 1, 1),
    badarg(fun() -> antientropy:count(Snapshot) end),
    badarg(fun() -> antientropy_snapshot:root(Replica) end),
    badarg(fun() -> antientropy_exchange:asks(Replica) end),
    badarg(fun() -> antientropy_hints:count(Slots) end),
    badarg(fun() -> antientropy_slots:count(Hints) end),
    badarg(fun() -> antientropy:bytes(Hints) end),
    badarg(fun() -> antientropy_snapshot:bytes(Replica) end),
    badarg(fun() -> antientropy_hints:bytes(Snapshot) end).
