%% Slots.
-module(slots_tests).

-include_lib("eunit/include/eunit.hrl").

%% Each test has 1 to 4 slots; a latency over 10 milliseconds is slow.
slots_test_() ->
    {foreach, fun setup/0, fun antientropy_slots:close/1, [
        {with, [Test]}
     || Test <- [fun lend/1, fun lent/1, fun adjust/1, fun refusals/1, fun wrong_types/1, fun empty/1]
    ]}.

setup() ->
    {ok, Slots} = antientropy_slots:new(1, 4, 10_000),
    Slots.

counts(Target, Lent, Free) ->
    {ok, #{target => Target, lent => Lent, free => Free}}.

lend(Slots) ->
    [ok = antientropy_slots:lend(Slots) || _ <- lists:seq(1, 4)],
    ?assertEqual(counts(4, 4, 0), antientropy_slots:count(Slots)),
    ?assertEqual({error, no_slot}, antientropy_slots:lend(Slots)),
    ?assertEqual({error, no_slot}, antientropy_slots:lent(Slots, fun() -> exit(lent) end)),
    ok = antientropy_slots:give_back(Slots),
    ?assertEqual(counts(4, 3, 1), antientropy_slots:count(Slots)).

lent(Slots) ->
    ?assertEqual({ok, counts(4, 1, 3)}, antientropy_slots:lent(Slots, fun() -> antientropy_slots:count(Slots) end)),
    ?assertEqual(counts(4, 0, 4), antientropy_slots:count(Slots)),
    ?assertError(oops, antientropy_slots:lent(Slots, fun() -> error(oops) end)),
    ?assertEqual(counts(4, 0, 4), antientropy_slots:count(Slots)).

adjust(Slots) ->
    ?assertEqual({ok, none}, antientropy_slots:adjust(Slots, 500)),
    ok = antientropy_slots:sample(Slots, 1000, 50_000),
    ?assertEqual({ok, 50_000}, antientropy_slots:adjust(Slots, 1000)),
    ?assertEqual(counts(2, 0, 2), antientropy_slots:count(Slots)),
    ok = antientropy_slots:sample(Slots, 70_000, 100),
    ?assertEqual({ok, 100}, antientropy_slots:adjust(Slots, 70_000)),
    ?assertEqual(counts(3, 0, 3), antientropy_slots:count(Slots)),
    ok = antientropy_slots:set_target(Slots, 1),
    ?assertEqual(counts(1, 0, 1), antientropy_slots:count(Slots)).

refusals(Slots) ->
    [
        ?assertEqual({error, bad_ring}, antientropy_slots:new(Floor, Ceiling, 1))
     || {Floor, Ceiling} <- [{0, 4}, {5, 4}, {1, 1025}]
    ],
    ?assertEqual({error, no_slot}, antientropy_slots:give_back(Slots)),
    ?assertEqual({error, bad_ring}, antientropy_slots:set_target(Slots, 5)),
    ok = antientropy_slots:sample(Slots, 1000, 1),
    ?assertEqual({error, clock_back}, antientropy_slots:sample(Slots, 999, 1)),
    ?assertEqual({error, clock_back}, antientropy_slots:adjust(Slots, 999)),
    ?assertEqual(counts(4, 0, 4), antientropy_slots:count(Slots)).

wrong_types(Slots) ->
    support:badarg(fun() -> antientropy_slots:new(1, 4, 1 bsl 32) end),
    support:badarg(fun() -> antientropy_slots:sample(Slots, -1, 1) end),
    support:badarg(fun() -> antientropy_slots:set_target(Slots, 1 bsl 32) end),
    support:badarg(fun() -> antientropy_slots:adjust(Slots, none) end).

empty(Slots) ->
    ok = antientropy_slots:close(Slots),
    [
        ?assertEqual({error, empty}, apply(antientropy_slots, Function, [Slots | Args]))
     || {Function, Args} <- [
            {lend, []}, {give_back, []}, {sample, [1, 1]}, {adjust, [1]}, {set_target, [1]}, {count, []}
        ]
    ].
