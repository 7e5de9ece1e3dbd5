%% @doc The folder of a place: whole, damaged, empty, kept aside; and the lives that a place knows of.
-module(life_tests).

-include_lib("eunit/include/eunit.hrl").

%% A disk is whole, or its damage is found, whatever is changed, and all of it is kept aside.
damage_test_() ->
    [room:test([], fun(Folder) -> damage(Change, Folder) end) || Change <- changes()].

damage(Change, Folder) ->
    fill(Folder),
    ?assertEqual({whole, 1}, cluster_folder:state()),
    ok = Change(Folder),
    ok = room:kill(cluster_lives),
    {ok, _} = cluster_lives:start_link(),
    {damaged, Why} = cluster_folder:state(),
    ok = cluster_folder:give_up(Why),
    ?assertEqual({ok, "aside-1"}, cluster_folder:move_aside()),
    ?assertEqual([{"aside-1", Why}], cluster_folder:asides()),
    ?assert(filelib:is_file(filename:join(Folder, "aside-1/range-3/manifest"))),
    ok = cluster_lives:begin_anew(),
    ?assertEqual(empty, cluster_folder:state()),
    ok = cluster_lives:learn([{1, 2}]),
    ok = cluster_folder:make(2),
    ?assertEqual({whole, 2}, cluster_folder:state()).

changes() ->
    Files = ["range-0/log.2", "range-0/checkpoint.2", "range-0/manifest", "range-0/synced", "life", "lives"],
    Flips = ["hints/log.1" | Files],
    Removals = ["range-0", "hints" | Files],
    [fun(Folder) -> room:flip(filename:join(Folder, Name)) end || Name <- Flips] ++
        [fun(Folder) -> cluster_disk:remove(filename:join(Folder, Name)) end || Name <- Removals] ++
        [fun(Folder) -> file:write_file(filename:join(Folder, "range-0/log.3"), <<"later">>) end].

%% Logs in the first range and in the hints, and a checkpoint in the range.
fill(_) ->
    {Range, RangeOwner, _} = lists:keyfind(cluster_folder:range(0), 1, cluster_folder:logs(1)),
    {Hints, HintsOwner, _} = lists:keyfind(cluster_folder:hints(), 1, cluster_folder:logs(1)),
    Open = fun(Folder, Owner) -> cluster_log:open(Folder, Owner, fun(none) -> ok end, fun(_, ok) -> ok end) end,
    {ok, Log, ok} = Open(Range, RangeOwner),
    {ok, Written} = cluster_log:write(Log, [<<"value">>]),
    {ok, Begun} = cluster_log:begin_file(Written),
    {ok, Seal} = cluster_log:save(cluster_log:checkpoint(Begun), fun(Device) -> file:write(Device, <<"rows">>) end),
    {ok, Adopted} = cluster_log:adopt(Begun, Seal),
    {ok, More} = cluster_log:write(Adopted, [<<"value">>]),
    ok = cluster_log:close(More),
    {ok, HintsLog, ok} = Open(Hints, HintsOwner),
    {ok, Kept} = cluster_log:write(HintsLog, [{keep, 2, <<"key">>, <<"value">>}]),
    ok = cluster_log:close(Kept).

%% A disk with only the file `lives' is empty. A new life that was interrupted is empty, too.
empty_test_() ->
    room:test([{life, none}], fun(Folder) ->
        ?assertEqual(empty, cluster_folder:state()),
        ok = cluster_lives:begin_anew(),
        ok = file:write_file(filename:join(Folder, "life.new"), <<>>),
        ?assertEqual(empty, cluster_folder:state()),
        ok = file:write_file(filename:join(Folder, "begun"), <<>>),
        ok = file:make_dir(filename:join(Folder, "range-0")),
        ?assertEqual(empty, cluster_folder:state()),
        ok = cluster_folder:make(1),
        ?assertEqual({whole, 1}, cluster_folder:state()),
        ?assertEqual(["hints", "life", "lives", "range-0", "range-3"], lists:sort(filelib:wildcard("*", Folder) --
            ["life.new"]))
    end).

%% An interrupted move continues in the same folder. A life that was given up isn't whole.
cut_off_test_() ->
    room:test([], fun(Folder) ->
        ok = cluster_folder:give_up("lost"),
        ?assertEqual({damaged, "lost"}, cluster_folder:state()),
        ok = file:make_dir(filename:join(Folder, "aside-1")),
        ok = file:rename(filename:join(Folder, "range-0"), filename:join(Folder, "aside-1/range-0")),
        ?assertEqual({damaged, "lost"}, cluster_folder:state()),
        ?assertEqual({ok, "aside-1"}, cluster_folder:move_aside()),
        ?assertEqual(["given-up", "hints", "life", "range-0", "range-3", "why"],
            lists:sort(filelib:wildcard("*", filename:join(Folder, "aside-1")))),
        ?assertEqual(empty, cluster_folder:state()),
        ok = cluster_folder:make(2),
        ok = cluster_folder:give_up("again"),
        ?assertEqual({ok, "aside-2"}, cluster_folder:move_aside())
    end).

%% The disk of another place, or of a life before the last one, is damage. A disk with other ranges isn't touched.
other_test_() ->
    room:test([], fun(_) ->
        ok = application:set_env(cluster, places, room:hosts([2, 3, 1, 4, 5])),
        ?assertMatch({refused, _}, cluster_folder:state()),
        ok = application:set_env(cluster, places, room:hosts([1, 2, 3, 4, 5])),
        ok = application:set_env(cluster, place, 2),
        ?assertMatch({damaged, _}, cluster_folder:state()),
        ok = application:set_env(cluster, place, 1),
        ok = cluster_lives:learn([{1, 2}]),
        ?assertMatch({damaged, _}, cluster_folder:state())
    end).

%% A place knows the greatest incarnation of each place, from announcements and from clocks, also after a restart.
lives_test_() ->
    room:test([], fun(_) ->
        ok = cluster_lives:learn([{2, 5}, {3, 1}]),
        ok = cluster_lives:learn([{2, 4}]),
        ok = cluster_lives:learn_from([#{cluster_lives:number(3, 7) => 1}, #{2 => 1}]),
        ok = room:kill(cluster_lives),
        {ok, _} = cluster_lives:start_link(),
        ?assertEqual([{ok, 1}, {ok, 5}, {ok, 7}, {ok, 0}], [cluster_lives:known(Place) || Place <- [1, 2, 3, 4]]),
        ?assertEqual(cluster_lives:number(31, 2047), 65535)
    end).

%% Before its file is whole, a place knows nothing, and learns nothing.
no_lives_test_() ->
    room:test([{life, none}], fun(_) ->
        ?assertEqual({error, starting}, cluster_lives:known(2)),
        ?assertEqual({error, starting}, cluster_lives:learn([{2, 5}])),
        ok = cluster_lives:begin_anew(),
        ?assertEqual({ok, 0}, cluster_lives:known(2))
    end).
