%% @doc The judgement of holders that know a version already.
-module(known_tests).

-include_lib("eunit/include/eunit.hrl").

%% The coordinator's life is 33, and the put is its first one of the key.
-define(PUT, version(#{33 => 1}, <<"value">>)).

judge_test_() ->
    Read = version(#{33 => 1, 34 => 1}, <<"over it">>),
    Cases = [
        {"the version itself", counts, [?PUT], [?PUT], 1},
        {"a version over it that the coordinator has", counts, [Read], [Read], 1},
        {"a version over it that is below what the coordinator has", counts, [Read],
            [version(#{33 => 1, 34 => 2}, <<"later">>)], 1},
        {"a version over it by another client, at another coordinator", unseen, [Read], [?PUT], 1},
        {"a later counter of the life", forgotten, [version(#{33 => 3}, <<"old">>)], [?PUT], 1},
        {"a later counter of the life, beside the version", forgotten, [?PUT, version(#{33 => 2}, <<"old">>)], [?PUT],
            1},
        {"another value under the clock of the put", forgotten, [version(#{33 => 1}, <<"old">>)], [?PUT], 1},
        {"no version", unseen, [], [?PUT], 1}
    ],
    [
        {Name, room:plain(fun() -> ?assertEqual(Judged, cluster_known:judge(?PUT, Row, Own, 33, Top)) end)}
     || {Name, Judged, Row, Own, Top} <- Cases
    ].

version(Clock, Value) -> #{clock => Clock, value => Value}.
