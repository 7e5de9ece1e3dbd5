%% @doc Claims: of all steps on a claim, only the first counts.
-module(claims_tests).

-include_lib("eunit/include/eunit.hrl").

-define(HOLDER, 2).

%% One of the holders that have a claim takes it, once. Messages may be repeated.
taken_test_() ->
    room:test([], fun(_) ->
        {1, Reference} = Claim = given(?HOLDER),
        ?assertNot(cluster_claims:take(Reference, 3)),
        ok = cluster_claims:give(Claim, 3),
        ?assertNot(cluster_claims:is_taken(Claim)),
        ?assert(cluster_claims:take(Reference, ?HOLDER)),
        ?assert(cluster_claims:is_taken(Claim)),
        ?assertNot(cluster_claims:take(Reference, 3)),
        ?assertNot(cluster_claims:take(Reference, ?HOLDER)),
        ?assertNot(cluster_claims:withdraw(Claim))
    end).

%% A holder that calls after the withdrawal doesn't get the claim. The next wait for it is longer.
withdrawn_test_() ->
    room:test([], fun(_) ->
        {1, Reference} = Claim = given(?HOLDER),
        timer:sleep(130),
        ?assert(cluster_claims:withdraw(Claim)),
        ?assertNot(cluster_claims:take(Reference, ?HOLDER)),
        ?assertNot(cluster_claims:withdraw(Claim)),
        ?assert(cluster_patience:ms(?HOLDER, {cluster_claims, take}) > 130)
    end).

%% Of many processes that take or withdraw a claim at once, one is first.
race_test_() ->
    room:test([], fun(_) ->
        Race = fun(_) ->
            {1, Reference} = Claim = given(?HOLDER),
            ok = cluster_claims:give(Claim, 3),
            Step = fun
                (1) -> cluster_claims:withdraw(Claim);
                (Holder) -> cluster_claims:take(Reference, Holder)
            end,
            [true || true <- room:all_at_once(Step, [3, 2, 1])]
        end,
        ?assertEqual(lists:duplicate(500, [true]), lists:map(Race, lists:seq(1, 500)))
    end).

%% Claims vanish with their table: nobody takes one, and the origin can't know that nobody has.
lost_table_test_() ->
    room:test([], fun(_) ->
        {1, Reference} = Claim = given(?HOLDER),
        ok = room:kill(cluster_claims),
        {ok, _} = cluster_claims:start_link(),
        ?assertNot(cluster_claims:take(Reference, ?HOLDER)),
        ?assertNot(cluster_claims:withdraw(Claim))
    end).

%% Old claims are removed, and the others are kept.
sweep_test_() ->
    room:test([], fun(_) ->
        Now = erlang:monotonic_time(microsecond),
        [{1, Old}, {1, New}] = [given(?HOLDER) || _ <- [1, 2]],
        [
            true = ets:update_element(cluster_claims, Key, {3, Now + Seconds * 1000000})
         || {Claim, Seconds} <- [{Old, -11}, {New, 600}], Key <- [Claim, {Claim, ?HOLDER}]
        ],
        cluster_claims ! sweep,
        _ = sys:get_state(cluster_claims),
        ?assertNot(cluster_claims:take(Old, ?HOLDER)),
        ?assert(cluster_claims:take(New, ?HOLDER))
    end).

given(Holder) ->
    Claim = cluster_claims:new(),
    ok = cluster_claims:give(Claim, Holder),
    Claim.
