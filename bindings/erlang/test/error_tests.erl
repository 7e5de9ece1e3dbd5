%% Arguments of wrong types, by their places.
-module(error_tests).

-include_lib("eunit/include/eunit.hrl").

%% The places of the wrong arguments that a call has, as a shell prints them.
wrong(Call) ->
    try Call() of
        Result -> error({no_error, Result})
    catch
        error:badarg:Stack ->
            [{antientropy_nif, _, [_ | _], Info} | _] = Stack,
            #{module := Module} = proplists:get_value(error_info, Info),
            Module:format_error(badarg, Stack)
    end.

places(Call) ->
    maps:keys(wrong(Call)).

arguments_test() ->
    Replica = support:replica(),
    {ok, Snapshot} = antientropy:snapshot(Replica),
    {ok, Hints} = antientropy_hints:new(),
    {ok, Slots} = antientropy_slots:new(1, 4, 1),
    [
        ?assertEqual({Places, Places}, {places(Call), Places})
     || {Places, Call} <- [
            {[1], fun() -> antientropy:put(none, 1, <<>>, <<>>) end},
            {[1], fun() -> antientropy:put(Snapshot, 1, <<>>, <<>>) end},
            {[1], fun() -> antientropy:count(make_ref()) end},
            {[2], fun() -> antientropy:put(Replica, -1, <<>>, <<>>) end},
            {[3], fun() -> antientropy:put(Replica, 1, nil, <<>>) end},
            {[4], fun() -> antientropy:put(Replica, 1, <<>>, nil) end},
            {[5], fun() -> antientropy:put(Replica, 1, <<>>, <<>>, [none]) end},
            {[5], fun() -> antientropy:put_unread(Replica, 1, <<>>, tombstone, #{1 => none}) end},
            {[3, 4], fun() -> antientropy:put(Replica, 1, nil, nil) end},
            {[3], fun() -> antientropy:accept(Replica, <<>>, #{clock => #{}}) end},
            {[2], fun() -> antientropy:get(Replica, "key") end},
            {[3], fun() -> antientropy:read(Replica, <<>>, -1) end},
            {[2], fun() -> antientropy:key_after(Replica, 1 bsl 64, <<>>) end},
            {[4], fun() -> antientropy:top_counter(Replica, 1, <<>>, none) end},
            {[2], fun() -> antientropy:load_rows(Replica, [none]) end},
            {[3], fun() -> antientropy:load_format(Replica, 1, [none]) end},
            {[2], fun() -> antientropy:hash_moment(Replica, none) end},
            {[2], fun() -> antientropy:rehash_some(Replica, none) end},
            {[2], fun() -> antientropy:renewal(Replica, none) end},
            {[2], fun() -> antientropy:renew(Replica, none) end},
            {[4], fun() -> antientropy:exchange(Replica, 1, <<>>, #{asks => none}) end},
            {[2], fun() -> antientropy:exchange(Replica, none, <<>>, #{}) end},
            {[2, 4], fun() -> antientropy:new(#{bits => none, limit => none}) end},
            {[5], fun() -> antientropy:new_seeded(#{}, none, 1) end},
            {[1], fun() -> antientropy:compare([none], #{}) end},
            {[1], fun() -> antientropy:read_offer(none) end},
            {[3], fun() -> antientropy:place(1, 1, none) end},
            {[1], fun() -> antientropy:name(1 bsl 32) end},
            {[2], fun() -> antientropy_snapshot:offer(Snapshot, 1 bsl 32) end},
            {[3], fun() -> antientropy_snapshot:serve(Snapshot, 1, none) end},
            {[2], fun() -> antientropy_snapshot:digest(Snapshot, none, 1) end},
            {[1], fun() -> antientropy_hints:restore(none) end},
            {[4], fun() -> antientropy_hints:keep(Hints, 1, <<>>, none) end},
            {[3], fun() -> antientropy_hints:next(Hints, 1, none) end},
            {[3], fun() -> antientropy_hints:confirm(Hints, 1, none) end},
            {[3], fun() -> antientropy_slots:new(1, 1, none) end},
            {[3], fun() -> antientropy_slots:sample(Slots, 1, 1 bsl 32) end},
            {[2], fun() -> antientropy_slots:set_target(Slots, none) end}
        ]
    ],
    ?assertMatch(#{3 := <<"not a binary">>}, wrong(fun() -> antientropy:put(Replica, 1, nil, <<>>) end)).

%% The stack has the caller, without the modules between.
stack_test() ->
    try
        {ok, _} = antientropy:get(none, <<>>)
    catch
        error:badarg:Stack -> ?assertMatch([{antientropy_nif, get, _, _}, {?MODULE, _, _, _} | _], Stack)
    end.
