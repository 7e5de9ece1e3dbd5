%% @doc Reports of crashes have no value of a client.
-module(report_tests).

-include_lib("eunit/include/eunit.hrl").

text_test_() -> room:plain(fun texts/0).

texts() ->
    Text = fun(Term) -> lists:flatten(unicode:characters_to_list(cluster_report:text(Term))) end,
    ?assertEqual("{put,<<5 bytes>>,<<6 bytes>>,#{33=>1}}", Text({put, <<"value">>, "secret", #{33 => 1}})),
    ?assertEqual("[{a,<<3 bytes>>}|<<2 bytes>>]", Text([{a, "abc"} | <<"xy">>])),
    ?assertEqual("[]", Text([])).

%% A range that crashes with a value in its last message and its reason prints one line for each report, and no value.
crash_test_() ->
    room:test([], fun(_) ->
        Crash = "{ok, Range} = cluster_range:start_link(0), unlink(Range), "
            "Monitor = monitor(process, Range), "
            "catch gen_server:call(cluster_range_0, {copies, [{<<\"key\">>, <<\"se\", \"cret\">>}]}), "
            "receive {'DOWN', Monitor, process, _, _} -> ok = logger_std_h:filesync(default) end",
        {0, Output} = room:elsewhere([], Crash),
        ?assertMatch({match, _}, re:run(Output, "cluster_range")),
        ?assertMatch({match, _}, re:run(Output, "<<6 bytes>>")),
        ?assertEqual(nomatch, re:run(Output, "secret|115,101,99")),
        [?assertMatch("error: " ++ _, Line) || Line <- string:lexemes(Output, "\n")]
    end).
