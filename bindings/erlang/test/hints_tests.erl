%% Hints.
-module(hints_tests).

-include_lib("eunit/include/eunit.hrl").

-import(support, [live/2]).

%% Each test has two hints for the node 2, and one for the node 3.
hints_test_() ->
    {foreach, fun setup/0, fun antientropy_hints:close/1, [
        {with, [Test]}
     || Test <- [
            fun read/1,
            fun large_values/1,
            fun deliver_and_renew/1,
            fun no_number_names_two_hints/1,
            fun confirm_one/1,
            fun bytes/1,
            fun refusals/1,
            fun wrong_types/1,
            fun empty/1
        ]
    ]}.

setup() ->
    {ok, Hints} = antientropy_hints:new(),
    {ok, 1} = antientropy_hints:keep(Hints, 2, <<"cart">>, live(#{1 => 1}, <<"milk">>)),
    {ok, 2} = antientropy_hints:keep(Hints, 2, <<"list">>, live([{3, 1}, {1, 2}], tombstone)),
    {ok, 3} = antientropy_hints:keep(Hints, 3, <<"cart">>, live(#{1 => 1}, <<"milk">>)),
    Hints.

hint(Number, Owner, Key, Clock, Value) ->
    #{number => Number, owner => Owner, key => Key, clock => Clock, value => Value}.

read(Hints) ->
    First = hint(1, 2, <<"cart">>, #{1 => 1}, <<"milk">>),
    Second = hint(2, 2, <<"list">>, #{1 => 2, 3 => 1}, tombstone),
    ?assertEqual({ok, First}, antientropy_hints:hint(Hints, 1)),
    ?assertEqual({ok, Second}, antientropy_hints:hint(Hints, 2)),
    ?assertEqual({ok, 1}, antientropy_hints:next(Hints, 2, 0)),
    ?assertEqual({ok, 2}, antientropy_hints:next(Hints, 2, 1)),
    ?assertEqual({error, no_version}, antientropy_hints:next(Hints, 2, 2)),
    ?assertEqual({error, no_version}, antientropy_hints:next(Hints, 9, 0)),
    ?assertEqual({ok, [First, Second]}, antientropy_hints:pending(Hints, 2)),
    ?assertEqual({ok, []}, antientropy_hints:pending(Hints, 9)),
    ?assertEqual({ok, 2}, antientropy_hints:fold(fun(_, Count) -> Count + 1 end, 0, Hints, 2)).

large_values(Hints) ->
    [
        begin
            Value = binary:copy(<<"v">>, Length),
            Key = binary:copy(<<"k">>, 255),
            {ok, Number} = antientropy_hints:keep(Hints, 65_535, Key, live(#{}, Value)),
            ?assertEqual({ok, hint(Number, 65_535, Key, #{}, Value)}, antientropy_hints:hint(Hints, Number))
        end
     || Length <- [0, 4096, 4097, 65_536]
    ].

deliver_and_renew(Hints) ->
    {ok, Owner} = antientropy:new(),
    {ok, new} = antientropy:accept(Owner, <<"cart">>, live(#{1 => 1}, <<"milk">>)),
    Deliver = fun(#{number := Number, key := Key} = Hint, Outcomes) ->
        {ok, Outcome} = antientropy:accept(Owner, Key, Hint),
        ok = antientropy_hints:confirm(Hints, Number, Outcome),
        [Outcome | Outcomes]
    end,
    ?assertEqual({ok, [new, known]}, antientropy_hints:fold(Deliver, [], Hints, 2)),
    ?assertEqual({ok, #{pending => 1, delivered => 2}}, antientropy_hints:count(Hints)),
    ?assertMatch({ok, #{key := <<"cart">>}}, antientropy_hints:hint(Hints, 1)),
    ok = antientropy_hints:renew(Hints),
    ?assertEqual({ok, #{pending => 1, delivered => 0}}, antientropy_hints:count(Hints)),
    Left = hint(4, 3, <<"cart">>, #{1 => 1}, <<"milk">>),
    ?assertEqual({ok, [Left]}, antientropy_hints:pending(Hints, 3)).

no_number_names_two_hints(Hints) ->
    ok = antientropy_hints:confirm(Hints, 1, new),
    ok = antientropy_hints:renew(Hints),
    {ok, Payment} = antientropy_hints:keep(Hints, 2, <<"payment">>, live(#{1 => 1}, <<>>)),
    ?assertEqual({error, unknown_hint}, antientropy_hints:confirm(Hints, 2, new)),
    ?assertEqual({error, no_version}, antientropy_hints:hint(Hints, 2)),
    ?assertMatch({ok, #{key := <<"payment">>}}, antientropy_hints:hint(Hints, Payment)),
    ?assertMatch({ok, [#{key := <<"list">>}, #{key := <<"payment">>}]}, antientropy_hints:pending(Hints, 2)).

restore_test() ->
    Last = 1 bsl 64 - 1,
    {ok, Hints} = antientropy_hints:restore(Last),
    Keep = fun() -> antientropy_hints:keep(Hints, 2, <<"cart">>, live(#{1 => 1}, <<"milk">>)) end,
    ?assertEqual({ok, Last}, Keep()),
    ?assertEqual({error, hints_full}, Keep()),
    ?assertEqual({error, hints_full}, antientropy_hints:renew(Hints)),
    ?assertMatch({ok, #{number := Last}}, antientropy_hints:hint(Hints, Last)),
    ?assertEqual({error, unknown_hint}, antientropy_hints:restore(0)),
    support:badarg(fun() -> antientropy_hints:restore(-1) end).

%% The hint of the number is confirmed, and no other.
confirm_one(Hints) ->
    ok = antientropy_hints:confirm(Hints, 2, new),
    ?assertMatch({ok, [#{number := 1}]}, antientropy_hints:pending(Hints, 2)),
    ?assertMatch({ok, [#{number := 3}]}, antientropy_hints:pending(Hints, 3)),
    ?assertEqual({error, unknown_hint}, antientropy_hints:confirm(Hints, 2, known)).

%% Delivered hints count until a renewal.
bytes(Hints) ->
    ?assertEqual({ok, (8 + 10) + (4 + 20) + (8 + 10)}, antientropy_hints:bytes(Hints)),
    ok = antientropy_hints:confirm(Hints, 2, new),
    ?assertEqual({ok, 60}, antientropy_hints:bytes(Hints)),
    ok = antientropy_hints:renew(Hints),
    ?assertEqual({ok, 36}, antientropy_hints:bytes(Hints)),
    {ok, None} = antientropy_hints:new(),
    ?assertEqual({ok, 0}, antientropy_hints:bytes(None)).

state(Hints) ->
    {antientropy_hints:count(Hints), antientropy_hints:pending(Hints, 2), antientropy_hints:pending(Hints, 3)}.

refusals(Hints) ->
    ok = antientropy_hints:confirm(Hints, 1, new),
    Before = state(Hints),
    Long = maps:from_list([{Node, 1} || Node <- lists:seq(1, 33)]),
    [
        ?assertEqual({error, Name}, apply(antientropy_hints, Function, [Hints | Args]))
     || {Name, Function, Args} <- [
            {bad_clock, keep, [0, <<"k">>, live(#{1 => 1}, <<>>)]},
            {bad_clock, keep, [65_537, <<"k">>, live(#{1 => 1}, <<>>)]},
            {bad_clock, keep, [2, <<"k">>, live(#{0 => 1}, <<>>)]},
            {no_version, next, [65_538, 0]},
            {clock_full, keep, [2, <<"k">>, live(Long, <<>>)]},
            {bad_key, keep, [2, <<>>, live(#{1 => 1}, <<>>)]},
            {bad_value, keep, [2, <<"k">>, live(#{1 => 1}, binary:copy(<<0>>, 65_537))]},
            {no_version, hint, [4]},
            {no_version, hint, [1 bsl 32 + 2]},
            {unknown_hint, confirm, [4, new]},
            {unknown_hint, confirm, [1 bsl 32 + 2, new]},
            {unknown_hint, confirm, [1, new]}
        ]
    ],
    ?assertEqual(Before, state(Hints)).

wrong_types(Hints) ->
    [
        support:badarg(fun() -> apply(antientropy_hints, Function, [Hints | Args]) end)
     || {Function, Args} <- [
            {keep, [-1, <<"k">>, live(#{}, <<>>)]},
            {keep, [2, "k", live(#{}, <<>>)]},
            {keep, [2, <<"k">>, #{}]},
            {next, [1 bsl 64, 0]},
            {next, [2, 1 bsl 64]},
            {hint, [1 bsl 64]},
            {confirm, [-1, new]},
            {confirm, [1, true]}
        ]
    ].

empty(Hints) ->
    ok = antientropy_hints:close(Hints),
    [
        ?assertEqual({error, empty}, apply(antientropy_hints, Function, [Hints | Args]))
     || {Function, Args} <- [
            {keep, [2, <<"k">>, live(#{}, <<>>)]},
            {next, [2, 0]},
            {hint, [1]},
            {pending, [2]},
            {confirm, [1, new]},
            {renew, []},
            {count, []},
            {bytes, []}
        ]
    ].

hints_full_test() ->
    {ok, Hints} = antientropy_hints:new(),
    Keep = fun(Counter) -> antientropy_hints:keep(Hints, 4, <<"k">>, live(#{1 => Counter}, <<>>)) end,
    [{ok, Number} = Keep(Number) || Number <- lists:seq(1, 10_000)],
    ?assertEqual({error, hints_full}, Keep(1)).
