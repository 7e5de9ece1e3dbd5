%% @doc Forwarded requests, copies, and rows. The other places are functions of the tests.
-module(coordinator_tests).

-include_lib("eunit/include/eunit.hrl").

%% The range 0 is held by the places 1, 2 and 3.
-define(RANGE, 0).
%% The table with the deeds of the other places.
-define(DEEDS, ?MODULE).
%% A time that no test takes, and that no test waits for, in milliseconds.
-define(NEVER_MS, 3600000).

%% ---- a put that place 4 forwards

%% Each way that a message can be late, repeated or lost, at the holders 1 to 3.
handed_on_test_() ->
    Cases = [
        {"a holder puts", [puts], {ok, 1}, [1]},
        {"one that is silent doesn't put later", [silent, puts], {ok, 2}, [2]},
        {"one that is down", [down, puts], {ok, 2}, [2]},
        {"a message that is repeated", [repeated], {ok, 1}, [1]},
        {"a holder that is late after its claim", [slow, puts], {ok, 1}, [1]},
        {"the claim's answer is lost", [claim_lost, puts], {perhaps, down}, []},
        {"the put's answer is lost", [put_lost, puts], {perhaps, down}, [1]},
        {"some refuse", [{refused, stale_context}, {refused, disk_full}, puts], {ok, 3}, [3]},
        {"a put that may have happened", [{perhaps, down}, puts], {perhaps, down}, []},
        {"all refuse", [{refused, starting}, {refused, stale_context}, down], {refused, stale_context}, []},
        {"one that is late, if no other puts", [last, down, down], {ok, 1}, [1]},
        {"all are silent, and don't put later", [silent, silent, silent], {refused, down}, []},
        {"all are down", [down, down, down], {refused, down}, []},
        {"bad input", [{refused, bad_value}, puts], {refused, bad_value}, []}
    ],
    [
        {Name, as_place(4, fun hold/4, fun() -> handed_on(Deeds, {Outcome, Places}) end)}
     || {Name, Deeds, Outcome, Places} <- Cases
    ].

%% Place 4 has endless patience with each holder that does something, and a short one with the others. A call has a time
%% limit only if all holders are silent.
handed_on(Deeds, Wanted) ->
    Patience = fun
        ([4, _]) -> 1;
        ([Place, _]) -> patience_ms(lists:nth(Place, Deeds))
    end,
    LimitMs =
        case lists:usort(Deeds) of
            [silent] -> 50;
            _ -> ?NEVER_MS
        end,
    Outcome = with_times(Patience, LimitMs, fun() ->
        Put = put_with(<<"value">>, Deeds),
        true = ets:insert(?DEEDS, {over, true}),
        ok = room:until(fun all_have_ended/0),
        Put
    end),
    ?assertEqual(Wanted, {Outcome, places(<<"value">>)}).

patience_ms(slow) ->
    ok = room:until(fun() -> ets:member(?DEEDS, claimed) end),
    20;
patience_ms(Deed) when Deed =:= silent; Deed =:= last; Deed =:= down ->
    20;
patience_ms(_) ->
    ?NEVER_MS.

with_times(Patience, LimitMs, Test) ->
    replaced:with({cluster_wire, limit_ms, 0}, fun([]) -> LimitMs end, fun() ->
        replaced:with({cluster_patience, ms, 2}, Patience, Test)
    end).

%% Whatever happens to each of many concurrent puts, none is done twice, and each has a true outcome.
at_most_once_test_() ->
    Deeds = [puts, {late, 50}, {late, 700}, down, repeated, slow, claim_lost, put_lost, {refused, stale_context}],
    as_place(4, fun hold/4, fun() ->
        Put = fun(Number) ->
            Value = integer_to_binary(Number),
            {Value, put_with(Value, [lists:nth(rand:uniform(length(Deeds)), Deeds) || _ <- [1, 2, 3]])}
        end,
        Outcomes = room:all_at_once(Put, lists:seq(1, 500)),
        ok = room:until(fun all_have_ended/0),
        ?assertEqual([], [Wrong || {Value, Outcome} = Wrong <- Outcomes, not is_true(Outcome, places(Value))])
    end).

is_true({ok, Place}, Places) -> Places =:= [Place];
is_true({perhaps, _}, Places) -> length(Places) =< 1;
is_true({refused, _}, Places) -> Places =:= [].

%% Puts a value, with holders that do these deeds with it.
put_with(Value, Deeds) ->
    true = ets:insert(?DEEDS, {{deeds, Value}, Deeds}),
    case cluster_coordinator:put(room:key(1), Value, #{}, 2) of
        {ok, #{coordinator := Place}} -> {ok, Place};
        Refused -> Refused
    end.

%% Returns the places that put a value.
places(Value) ->
    lists:sort([Place || {{put, Put}, Place} <- ets:tab2list(?DEEDS), Put =:= Value]).

%% A holder, which calls the place 4 for its claim.
hold(Place, cluster_coordinator, put_claimed, [{4, Reference}, ?RANGE, _, Value, _, 2]) ->
    [{_, Deeds}] = ets:lookup(?DEEDS, {deeds, Value}),
    Call = {Place, make_ref()},
    true = ets:insert(?DEEDS, {begun, Call}),
    Claim = fun() -> cluster_claims:take(Reference, Place) end,
    Put = fun() ->
        true = ets:insert(?DEEDS, {{put, Value}, Place}),
        {ok, #{coordinator => Place}}
    end,
    try
        do(lists:nth(Place, Deeds), Claim, Put)
    after
        true = ets:insert(?DEEDS, {ended, Call})
    end;
hold(_, cluster_ring, here, []) ->
    error({erpc, timeout}).

%% Returns the calls of holders that have begun, or have ended.
calls(Word) ->
    lists:sort([Call || {_, Call} <- ets:lookup(?DEEDS, Word)]).

all_have_ended() ->
    calls(begun) =:= calls(ended).

do(puts, Claim, Put) ->
    put_if(Claim(), Put);
do(silent, Claim, Put) ->
    ok = room:until(fun() -> ets:member(?DEEDS, over) end),
    put_if(Claim(), Put);
do(last, Claim, Put) ->
    ok = room:until(fun() -> length(calls(ended)) =:= 2 end),
    put_if(Claim(), Put);
do({late, Ms}, Claim, Put) ->
    timer:sleep(Ms),
    put_if(Claim(), Put);
do(down, _, _) ->
    error({erpc, noconnection});
do(repeated, Claim, Put) ->
    [Answer, unclaimed] = [put_if(Claim(), Put) || _ <- [1, 2]],
    Answer;
do(slow, Claim, Put) ->
    IsMine = Claim(),
    true = ets:insert(?DEEDS, {claimed, true}),
    timer:sleep(150),
    put_if(IsMine, Put);
do(claim_lost, Claim, _) ->
    _ = Claim(),
    unclaimed;
do(put_lost, Claim, Put) ->
    _ = put_if(Claim(), Put),
    error({erpc, timeout});
do(Refusal, Claim, _) ->
    put_if(Claim(), fun() -> Refusal end).

put_if(true, Put) -> Put();
put_if(false, _) -> unclaimed.

%% ---- puts at place 1, a holder

%% Nothing is put without a claim.
unclaimed_test_() ->
    Other = fun(Place, cluster_claims, take, [_, 1]) -> Place =:= 5 end,
    as_place(1, Other, fun() ->
        Put = fun(Origin) ->
            cluster_coordinator:put_claimed({Origin, make_ref()}, ?RANGE, room:key(1), <<"value">>, #{0 => 1}, 2)
        end,
        ?assertEqual(unclaimed, Put(4)),
        ?assertEqual({refused, bad_clock}, Put(5)),
        ?assertEqual({ok, [], 0, 33}, cluster_range:own(?RANGE, room:key(1)))
    end).

%% A put that is stale here is forwarded.
stale_test_() ->
    Other = fun
        (_, cluster_range, copy, _) ->
            {ok, new};
        (Place, cluster_coordinator, put_claimed, [{1, Reference} | _]) ->
            true = cluster_claims:take(Reference, Place),
            true = ets:insert(?DEEDS, {asked, Place}),
            {refused, stale_context}
    end,
    as_place(1, Other, fun() ->
        Put = fun() -> cluster_coordinator:put(room:key(1), <<"value">>, #{}, 2) end,
        ?assertMatch({ok, #{coordinator := 1, clock := #{33 := 1}, on := [1, _]}}, Put()),
        ?assertEqual({refused, stale_context}, Put()),
        ?assertEqual([{asked, 2}, {asked, 3}], lists:sort(ets:tab2list(?DEEDS)))
    end).

%% Each late copy has a hint before its time limit. From then on its holder is down, and is sent no copy.
late_copies_test_() ->
    Other = fun
        (Place, cluster_range, copy, _) ->
            true = ets:insert(?DEEDS, {copied, Place}),
            ok = room:until(fun() -> ets:member(?DEEDS, over) end),
            error({erpc, timeout});
        (Place, cluster_hints, keep, [Owner, ?RANGE, _, _]) ->
            true = ets:insert(?DEEDS, {{hint, Owner}, Place}),
            {ok, 1};
        (_, cluster_ring, here, []) ->
            error({erpc, timeout})
    end,
    Hinted = fun() -> lists:usort([Owner || {{hint, Owner}, _} <- ets:tab2list(?DEEDS)]) end,
    as_place(1, Other, fun() ->
        ok = put_with_a_carrier(room:key(1)),
        ok = room:until(fun() -> Hinted() =:= [2, 3] end),
        true = ets:insert(?DEEDS, {over, true}),
        ok = room:until(fun() -> cluster_wire:down() =:= [2, 3] end),
        true = ets:delete(?DEEDS, copied),
        ok = put_with_a_carrier(room:key(2)),
        ?assertEqual([], ets:lookup(?DEEDS, copied))
    end).

put_with_a_carrier(Key) ->
    {ok, #{on := [1, Carrier]}} = cluster_coordinator:put(Key, <<"value">>, #{}, 2),
    ?assert(lists:member(Carrier, [4, 5])).

%% A holder that is down gets a hint at once, but is asked first if it hasn't checked this node's disk since the start.
unchecked_test_() ->
    Other = fun
        (Place, cluster_range, copy, _) ->
            true = ets:insert(?DEEDS, {asked, Place}),
            error({erpc, noconnection});
        (_, cluster_hints, keep, _) ->
            {ok, 1};
        (_, cluster_ring, here, []) ->
            error({erpc, noconnection})
    end,
    Asked = fun() ->
        true = ets:delete_all_objects(?DEEDS),
        [down = cluster_wire:call(Place, cluster_ring, here, []) || Place <- [2, 3]],
        {ok, #{on := [1 | _]}} = cluster_coordinator:put(room:key(3), <<"value">>, #{}, 2),
        lists:sort(ets:tab2list(?DEEDS))
    end,
    as_place(1, Other, fun() ->
        {ok, _} = cluster_coordinator:put(room:key(1), <<"value">>, #{}, 2),
        ok = room:until(fun() -> lists:sort(ets:tab2list(?DEEDS)) =:= [{asked, 2}, {asked, 3}] end),
        ?assertEqual([], Asked()),
        ok = room:kill(cluster_range_0),
        {ok, Range} = cluster_range:start_link(?RANGE),
        true = unlink(Range),
        ?assertEqual([2, 3], cluster_range:unchecked(?RANGE)),
        {ok, _} = cluster_coordinator:put(room:key(2), <<"value">>, #{}, 2),
        room:until(fun() -> lists:sort(ets:tab2list(?DEEDS)) =:= [{asked, 2}, {asked, 3}] end)
    end).

%% Carriers without space are named by the owners whose hints they refuse.
no_room_for_hints_test_() ->
    Other = fun
        (_, cluster_hints, keep, _) -> {error, hints_full};
        (_, _, _, _) -> error({erpc, noconnection})
    end,
    as_place(1, Other, fun() ->
        {ok, Hints} = cluster_hints:start_link(),
        true = unlink(Hints),
        ?assertEqual({perhaps, hints_full, [2, 3]}, cluster_coordinator:put(room:key(1), <<"value">>, #{}, 2))
    end).

%% A request may name its own W: one disk is enough at once, and three are too many if only one other place is up.
own_w_test_() ->
    Other = fun
        (2, cluster_range, copy, _) -> {ok, new};
        (_, _, _, _) -> error({erpc, noconnection})
    end,
    as_place(1, Other, fun() ->
        Put = fun(Number, W) -> cluster_coordinator:put(room:key(Number), <<"value">>, #{}, W) end,
        ?assertMatch({ok, #{on := [1]}}, Put(1, 1)),
        ?assertMatch({ok, #{on := [1, 2]}}, Put(2, 2)),
        ?assertEqual({perhaps, down}, Put(3, 3))
    end).

%% A request may name its own R.
own_r_test_() ->
    Other = fun
        (2, cluster_range, row, _) -> {ok, <<>>};
        (_, _, _, _) -> error({erpc, noconnection})
    end,
    as_place(1, Other, fun() ->
        Get = fun(R) -> cluster_coordinator:get(room:key(1), R) end,
        ?assertMatch([{ok, #{versions := []}}, {ok, _}, {refused, down}], lists:map(Get, [1, 2, 3]))
    end).

%% A context is refused if it has a number that isn't a life of a place.
no_life_test_() ->
    as_place(1, fun(_, _, _, _) -> error({erpc, noconnection}) end, fun() ->
        Put = fun(Context) -> cluster_coordinator:put(room:key(1), <<"value">>, Context, 1) end,
        Invented = [#{38 => 1}, #{1 => 1}, [{0, 1}], maps:from_list([{32 * It + 6, 1} || It <- lists:seq(1, 31)])],
        [?assertEqual({refused, bad_context}, Put(Context)) || Context <- Invented],
        ?assertMatch({ok, _}, Put(#{}))
    end).

%% ---- gets at place 1

%% A get asks the next holder if one is silent, and takes the first answer.
handed_on_get_test_() ->
    Other = fun
        (1, cluster_coordinator, get_here, _) ->
            ok = room:until(fun() -> ets:member(?DEEDS, answered) end),
            {ok, #{coordinator => 1, versions => []}};
        (2, cluster_coordinator, get_here, [?RANGE, Key, 2]) ->
            case Key =:= room:key(1) of
                true -> {ok, #{coordinator => 2, versions => []}};
                false -> {refused, starting}
            end;
        (3, cluster_coordinator, get_here, _) ->
            {refused, down}
    end,
    as_place(4, Other, fun() ->
        Patience = fun([Place, _]) -> maps:get(Place, #{1 => 20, 2 => ?NEVER_MS, 3 => ?NEVER_MS}) end,
        with_times(Patience, ?NEVER_MS, fun() ->
            ?assertMatch({ok, #{coordinator := 2}}, cluster_coordinator:get(room:key(1), 2)),
            true = ets:insert(?DEEDS, {answered, true}),
            ?assertMatch({ok, #{coordinator := 1}}, cluster_coordinator:get(room:key(2), 2))
        end)
    end).

%% A holder whose row is behind gets its missing versions. Equal rows are written nowhere.
read_repair_test_() ->
    Version = #{clock => #{34 => 1}, value => <<"other">>},
    Other = fun
        (2, cluster_range, row, [_, Key]) ->
            true = ets:insert(?DEEDS, {process, self()}),
            {ok, row(Version, Key)};
        (3, cluster_range, row, _) ->
            true = ets:insert(?DEEDS, {process, self()}),
            ok = room:until(fun() -> ets:member(?DEEDS, answered) end),
            {ok, <<>>};
        (Place, cluster_range, take_row, [?RANGE, Key, Row]) ->
            true = ets:insert(?DEEDS, {repaired, {Place, Key, Row}, make_ref()}),
            {ok, Row}
    end,
    HaveEnded = fun(Count) ->
        Processes = [Process || {process, Process} <- ets:lookup(?DEEDS, process)],
        length(Processes) =:= Count andalso not lists:any(fun is_process_alive/1, Processes)
    end,
    as_place(1, Other, fun() ->
        Key = room:key(1),
        Get = fun() -> cluster_coordinator:get(Key, 2) end,
        Patience = fun([_, _]) -> ?NEVER_MS end,
        with_times(Patience, ?NEVER_MS, fun() ->
            ?assertEqual({ok, #{coordinator => 1, versions => [Version]}}, Get()),
            true = ets:insert(?DEEDS, {answered, true}),
            ok = room:until(fun() -> HaveEnded(2) end),
            [{repaired, Repaired, _}] = ets:lookup(?DEEDS, repaired),
            ?assertEqual({3, Key, row(Version, Key)}, Repaired),
            ok = application:set_env(cluster, read_repair, off),
            {ok, _} = Get(),
            ok = room:until(fun() -> HaveEnded(4) end),
            ok = application:set_env(cluster, read_repair, on),
            ?assertMatch([_], ets:lookup(?DEEDS, repaired))
        end)
    end).

row(Version, Key) ->
    {ok, Replica} = antientropy:new(cluster_ring:replica_options(?RANGE)),
    {ok, new} = antientropy:accept(Replica, Key, Version),
    {ok, Row} = antientropy:row(Replica, Key),
    Row.

%% A holder that is down is asked only if the others are too few. A get then has its row.
last_resort_test_() ->
    Other = fun
        (Place, cluster_range, row, _) ->
            true = ets:insert(?DEEDS, {row, Place}),
            true = Place =:= 2 orelse ets:member(?DEEDS, up),
            {ok, <<>>};
        (_, cluster_ring, here, []) ->
            error({erpc, timeout})
    end,
    as_place(1, Other, fun() ->
        down = cluster_wire:call(2, cluster_ring, here, []),
        down = cluster_wire:call(3, cluster_ring, here, []),
        ?assertMatch({ok, _}, cluster_coordinator:get(room:key(1), 2)),
        room:until(fun() -> cluster_wire:down() =:= [3] end),
        true = ets:delete(?DEEDS, row),
        ?assertMatch({ok, _}, cluster_coordinator:get(room:key(1), 2)),
        ?assertEqual([{row, 2}], ets:tab2list(?DEEDS))
    end).

%% Runs a test as a place. Calls of other places are calls of a function. No place is called again by itself. Place 1
%% has its range.
as_place(Place, Other, Test) ->
    room:test([{place, Place}], fun(_) ->
        ok = room:kill(cluster_wire),
        ?DEEDS = ets:new(?DEEDS, [named_table, public, bag]),
        try
            Place =:= 1 andalso joined_range(),
            links:with(Other, Test)
        after
            true = ets:delete(?DEEDS)
        end
    end).

joined_range() ->
    {ok, Range} = cluster_range:start_link(?RANGE),
    true = unlink(Range),
    [
        begin
            {ok, Replica} = cluster_range:borrow(?RANGE),
            ok = cluster_range:give_back(?RANGE, Replica, {all_of, Partner})
        end
     || Partner <- [2, 3]
    ].
