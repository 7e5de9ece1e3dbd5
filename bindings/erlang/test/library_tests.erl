%% Calls without a handle, the names of refusals, and the application.
-module(library_tests).

-include_lib("eunit/include/eunit.hrl").

version_test() ->
    {Major, Minor, Patch} = antientropy:version(),
    {ok, _} = application:ensure_all_started(antientropy),
    {ok, Version} = application:get_key(antientropy, vsn),
    ?assertEqual(lists:flatten(io_lib:format("~b.~b.~b", [Major, Minor, Patch])), Version).

name_test() ->
    ?assertEqual(
        [bad_clock, bad_key, stale_context, no_memory, no_version, bad_position],
        [antientropy:name(Number) || Number <- [1, 4, 6, 32, 36, 37]]
    ),
    ?assertEqual([undefined, undefined], [antientropy:name(Number) || Number <- [255, 1 bsl 32 - 1]]).

place_test() ->
    ?assertEqual({ok, #{range => 9, leaf => 0}}, antientropy:place(1, 4, <<"abc">>)),
    ?assertEqual({ok, #{range => 15, leaf => 2411}}, antientropy:place(2, 4, <<"message digest">>)).

compare_test() ->
    ?assertEqual({ok, before}, antientropy:compare(#{1 => 1}, #{1 => 2})),
    ?assertEqual({ok, 'after'}, antientropy:compare([{2, 1}, {1, 1}], #{1 => 1})),
    ?assertEqual({ok, equal}, antientropy:compare(#{}, [])),
    ?assertEqual({ok, apart}, antientropy:compare(#{1 => 1}, #{2 => 1})).

merge_test() ->
    ?assertEqual({ok, #{}}, antientropy:merge([])),
    ?assertEqual({ok, #{1 => 3, 2 => 1}}, antientropy:merge([#{2 => 1, 1 => 3}])),
    ?assertEqual({ok, #{1 => 3, 2 => 5, 3 => 1}}, antientropy:merge([#{1 => 3}, [{1, 1}, {2, 5}], #{3 => 1}])).

modules_of_the_application_test() ->
    {ok, Modules} = application:get_key(antientropy, modules),
    Files = filelib:wildcard("src/*.erl"),
    ?assertEqual(lists:sort([list_to_atom(filename:basename(File, ".erl")) || File <- Files]), lists:sort(Modules)).

%% A running node loads the module again, with the same library or another file of it. The handles of the instance
%% before stay, with processes that wait in line.
upgrade_test_() ->
    {timeout, 60, fun() ->
        Replica = support:fill(support:replica(#{limit => 100_000}), 1000),
        Dropped = support:async(fun() ->
            _ = support:fill(support:replica(), 1000),
            receive stop -> ok end
        end),
        [ok = upgrade(Replica, Node) || Node <- [2, 3, 4]],
        ok = support:stop(Dropped),
        ok = antientropy:renew_in_place(Replica),
        ?assertMatch({ok, #{entries := 1003}}, antientropy:count(Replica)),
        ok = antientropy:close(Replica)
    end}.

upgrade(Replica, Node) ->
    Holder = support:hold(Replica, change),
    Put = support:in_line(support:async(fun() -> antientropy:put(Replica, Node, <<"k">>, <<>>) end)),
    Library = filename:join(code:priv_dir(antientropy), "antientropy_nif.so"),
    [ok = replace(Library) || Node rem 2 =:= 0],
    _ = code:purge(antientropy_nif),
    {module, antientropy_nif} = code:load_file(antientropy_nif),
    false = code:purge(antientropy_nif),
    {ok, _} = antientropy:root(support:fill(support:replica(), 500)),
    support:kill(Holder),
    {ok, _} = support:await(Put),
    ok.

%% Replaces a file by a copy. Programs that have the old one keep it.
replace(File) ->
    {ok, _} = file:copy(File, File ++ ".new"),
    ok = file:rename(File ++ ".new", File).
