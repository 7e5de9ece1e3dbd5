%% @doc The ring, the settings, and texts.
-module(text_tests).

-include_lib("eunit/include/eunit.hrl").

%% The holders of each range, and its carriers.
ring_test_() ->
    room:test([], fun(_) ->
        Ranges = [0, 1, 2, 3],
        Holders = [[1, 2, 3], [2, 3, 4], [3, 4, 5], [4, 5, 1]],
        ?assertEqual(Holders, [cluster_ring:holders(Range) || Range <- Ranges]),
        ?assertEqual([[4, 5], [5, 1], [1, 2], [2, 3]], [cluster_ring:carriers(Range) || Range <- Ranges]),
        ?assertEqual([0, 3], cluster_ring:held())
    end).

%% A ring of few places has fewer holders, and no carriers. One of no bits has one range.
small_ring_test_() ->
    room:test([{places, room:hosts([1, 2])}, {quorums, {2, 1, 2}}], fun(_) ->
        ?assertEqual([[1, 2], [2, 1], [1, 2], [2, 1]], [cluster_ring:holders(Range) || Range <- [0, 1, 2, 3]]),
        ?assertEqual([], cluster_ring:carriers(3)),
        ok = application:set_env(cluster, bits, 0),
        ?assertEqual([0], cluster_ring:held()),
        ?assertEqual({ok, 0}, cluster_ring:range(<<"key">>))
    end).

%% Nodes have their names from the settings. The digest of the ring depends on the ring's settings, and on no others.
hosts_test_() ->
    room:test([{places, [{1, "10.0.0.1"}, {7, "store.example"}]}], fun(_) ->
        ?assertEqual(['p1@10.0.0.1', 'p7@store.example'], [cluster_ring:node_of(Place) || Place <- [1, 7]]),
        Digest = cluster_ring:digest(),
        ?assertEqual(Digest, cluster_ring:digest()),
        Others = [{places, [{7, "store.example"}, {1, "10.0.0.1"}]}, {bits, 3}, {quorums, {3, 1, 2}}],
        Digests = [with_setting(Setting, fun cluster_ring:digest/0) || Setting <- Others],
        ?assertEqual(4, length(lists:usort([Digest | Digests]))),
        ?assertEqual(Digest, with_setting({limit, 7}, fun cluster_ring:digest/0))
    end).

with_setting({Name, Value}, Fun) ->
    {ok, Before} = application:get_env(cluster, Name),
    ok = application:set_env(cluster, Name, Value),
    Result = Fun(),
    ok = application:set_env(cluster, Name, Before),
    Result.

%% A node with an invalid setting names it, in a line.
settings_test_() ->
    room:test([], fun(_) ->
        ?assertEqual(ok, cluster_settings:check()),
        Wrong = [
            {places, []},
            {places, [{1, "a"}, {1, "b"}]},
            {places, [{32, "a"}]},
            {places, [1, 2]},
            {place, 6},
            {bits, 9},
            {quorums, {6, 2, 2}},
            {quorums, {3, 4, 2}},
            {quorums, {3, 2, 0}},
            {quorums, 3},
            {folder, 7},
            {limit, 0},
            {limit, 1000001},
            {slots, {4, 1, 20000}},
            {round_ms, 0},
            {repair, yes},
            {http_port, 65536},
            {http_host, "no.such.host.invalid"},
            {http_token, "no such file"},
            {https, {"no such file", "nor this"}},
            {incarnation, 0}
        ],
        [
            begin
                {error, Why} = with_setting(Setting, fun cluster_settings:check/0),
                ?assertMatch({_, nomatch}, {Name, string:find(Why, "\n")}),
                ?assertNotEqual({Setting, nomatch}, {Setting, string:find(Why, atom_to_list(Name))})
            end
         || {Name, _} = Setting <- Wrong
        ]
    end).

%% A client sends back a context that it got: nothing else is a context, nor is another key's.
context_test_() -> room:plain(fun contexts/0).

contexts() ->
    Clock = #{33 => 3, 65535 => 1 bsl 64 - 1},
    Context = cluster_clock:context(<<"key">>, Clock),
    ?assertEqual({ok, maps:to_list(Clock)}, cluster_clock:read_context(<<"key">>, Context)),
    ?assertEqual({ok, []}, cluster_clock:read_context(<<"key">>, "")),
    ?assertEqual({error, bad_context}, cluster_clock:read_context(<<"other">>, Context)),
    Bytes = base64:decode(Context),
    Flipped = [flipped(Bytes, Number) || Number <- lists:seq(0, bit_size(Bytes) - 1)],
    Cut = [binary:part(Bytes, 0, Length) || Length <- lists:seq(1, byte_size(Bytes) - 1)],
    Unsigned = <<0:128, 33:16, 3:64>>,
    [
        ?assertEqual({error, bad_context}, cluster_clock:read_context(<<"key">>, base64:encode(Bad)))
     || Bad <- [Unsigned, <<Bytes/binary, 0>> | Flipped ++ Cut]
    ],
    [
        ?assertEqual({error, bad_context}, cluster_clock:read_context(<<"key">>, Text))
     || Text <- ["AAAA", "A", "****", "AAAA=A=="]
    ],
    ?assertEqual("33:3,65535:18446744073709551615", lists:flatten(cluster_clock:text(Clock))).

flipped(Bytes, Number) ->
    <<Before:Number, Bit:1, After/bits>> = Bytes,
    <<Before:Number, (1 - Bit):1, After/bits>>.

%% A number is a life if a place of the ring may have it.
lives_test_() ->
    room:test([], fun(_) ->
        ?assert(cluster_clock:are_lives(#{33 => 1, 5 + 32 * 2047 => 7})),
        [?assertNot(cluster_clock:are_lives([{Number, 1}])) || Number <- [0, 1, 5, 32, 38, 64, 63, 5 + 32 * 2048]]
    end).

%% The text for Prometheus has each line in the valid form, and histograms add up.
metrics_test_() ->
    room:test([], fun(_) ->
        [ok = cluster_metrics:observe(requests, [{kind, put}], Micros) || Micros <- [0, 500, 501, 7000000]],
        ok = cluster_metrics:count(requests, [{kind, put}, {outcome, refused}, {cause, stale_context}]),
        Text = unicode:characters_to_list(cluster_prometheus:text()),
        Lines = string:lexemes(Text, "\n"),
        Labels = "{[a-z]+=\"[^\"]*\"(,[a-z]+=\"[^\"]*\")*}",
        Line = "^(# (HELP|TYPE) cluster_[a-z_]+ .+|cluster_[a-z_]+(" ++ Labels ++ ")? -?[0-9.]+)$",
        ?assertEqual([], [Wrong || Wrong <- Lines, re:run(Wrong, Line) =:= nomatch]),
        Wanted = [
            "cluster_requests_total{kind=\"put\",outcome=\"refused\",cause=\"stale_context\"} 1",
            "cluster_request_seconds_bucket{kind=\"put\",le=\"0.0005\"} 2",
            "cluster_request_seconds_bucket{kind=\"put\",le=\"0.001\"} 3",
            "cluster_request_seconds_bucket{kind=\"put\",le=\"2.5\"} 3",
            "cluster_request_seconds_bucket{kind=\"put\",le=\"+Inf\"} 4",
            "cluster_request_seconds_sum{kind=\"put\"} 7.001001",
            "cluster_request_seconds_count{kind=\"put\"} 4",
            "cluster_place_up{place=\"5\"} 1",
            "cluster_incarnation{place=\"1\"} 1"
        ],
        ?assertEqual([], Wanted -- Lines)
    end).
