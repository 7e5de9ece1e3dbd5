%% @doc The time to wait for a place, and the order of refusals.
-module(patience_tests).

-include_lib("eunit/include/eunit.hrl").

-define(KIND, {cluster_range, copy}).

patience_test_() ->
    room:test([], fun(_) ->
        After = fun(Micros, Times) ->
            [ok = cluster_patience:note(2, ?KIND, Micros) || _ <- lists:seq(1, Times)],
            cluster_patience:ms(2, ?KIND)
        end,
        ?assertEqual(100, cluster_patience:ms(2, ?KIND)),
        ?assert(cluster_patience:is_silent(2, 1)),
        ?assertEqual(20, After(1000, 1)),
        ?assertNot(cluster_patience:is_silent(2, 60000)),
        timer:sleep(30),
        ?assert(cluster_patience:is_silent(2, 30)),
        ?assertEqual(40, After(40000, 50)),
        ?assert(After(200000, 1) > 100),
        ?assertEqual(500, After(9000000, 50)),
        ?assert(After(2000, 50) < 30),
        ?assertEqual(100, cluster_patience:ms(3, ?KIND)),
        ?assertEqual(100, cluster_patience:ms(2, {cluster_range, row}))
    end).

refusal_test_() -> room:plain(fun refusals/0).

refusals() ->
    First = fun(Names) -> lists:foldl(fun cluster_refusal:first/2, down, Names) end,
    ?assertEqual(stale_context, First([down, stale_context, disk_full])),
    ?assertEqual(stale_context, First([stale_context, clock_full])),
    ?assertEqual(disk_full, First([starting, disk_full, down])),
    ?assertEqual(other, First([other, down])),
    ?assertEqual(down, First([down, down])),
    ?assertEqual([true, false], lists:map(fun cluster_refusal:is_final/1, [bad_value, stale_context])),
    ?assertEqual(<<"StaleContext">>, cluster_refusal:text(stale_context)).
