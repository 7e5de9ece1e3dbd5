%% @doc A log: its properties, the files after a crash, and a full disk.
-module(log_tests).

-include_lib("eunit/include/eunit.hrl").

-define(OWNER, owner).

%% The properties of a log, if PropEr is installed.
properties_test_() ->
    room:test([{life, none}], fun(Folder) ->
        code:ensure_loaded(proper) =:= {error, nofile} orelse ?assert(log_properties:check(room(Folder)))
    end).

%% Returns a folder in memory, if there is such a folder: thousands of syncs are slow on a disk.
room(Folder) ->
    case filelib:is_dir("/dev/shm") of
        true -> "/dev/shm/" ++ filename:basename(Folder) ++ "-" ++ os:getpid();
        false -> filename:join(Folder, "logs")
    end.

%% A record that was cut in the middle isn't there. The next one is in its place.
cut_test_() ->
    room:test([{life, none}], fun(Folder) ->
        Log = made(Folder),
        {ok, First} = cluster_log:write(Log, [first]),
        Synced = file:read_file(filename:join(Folder, "log/synced")),
        {ok, Second} = cluster_log:write(First, [<<0:800>>]),
        ok = cluster_log:close(Second),
        change(Folder, "synced", fun(_) -> element(2, Synced) end),
        change(Folder, "log.1", fun(Bytes) -> binary:part(Bytes, 0, byte_size(Bytes) - 50) end),
        {Cut, [first]} = open(Folder),
        {ok, Third} = cluster_log:write(Cut, [third]),
        ok = cluster_log:close(Third),
        ?assertMatch({_, [first, third]}, open(Folder))
    end).

%% A larger group takes several records, all or none of it.
group_test_() ->
    room:test([{life, none}], fun(Folder) ->
        {ok, Log} = cluster_log:write(made(Folder), lists:seq(1, 2500)),
        ok = cluster_log:close(Log),
        {_, Terms} = open(Folder),
        ?assertEqual(lists:seq(1, 2500), Terms)
    end).

%% A full disk has no part of a group, and takes others once there is space.
full_test_() ->
    room:full_test([{life, none}], fun(Folder) ->
        {ok, Log} = cluster_log:write(made(Folder), [first]),
        {full, Same} = cluster_log:write(Log, lists:duplicate(5000, <<0:8000>>)),
        {full, Still} = cluster_log:write(Same, [<<0:(8 * 5000000)>>]),
        {ok, More} = cluster_log:write(Still, [second]),
        ok = cluster_log:close(More),
        ?assertMatch({_, [first, second]}, open(Folder)),
        ok = fill(Folder),
        {Again, _} = open(Folder),
        ?assertMatch({full, _}, cluster_log:write(Again, [<<0:80000>>])),
        {full, Begun} = cluster_log:begin_file(Again),
        ok = cluster_log:close(Begun),
        ok = file:delete(filename:join(Folder, "filler")),
        ?assertMatch({_, [first, second]}, open(Folder))
    end).

%% Fills the disk.
fill(Folder) ->
    {error, enospc} = file:write_file(filename:join(Folder, "filler"), <<0:(8 * 5000000)>>),
    ok.

made(Folder) ->
    ok = cluster_log:make(filename:join(Folder, "log"), ?OWNER, note),
    {Log, []} = open(Folder),
    Log.

open(Folder) ->
    Add = fun(Term, Terms) -> [Term | Terms] end,
    {ok, Log, Terms} = cluster_log:open(filename:join(Folder, "log"), ?OWNER, fun(none) -> [] end, Add),
    {Log, lists:reverse(Terms)}.

change(Folder, Name, Fun) ->
    File = filename:join([Folder, "log", Name]),
    {ok, Bytes} = file:read_file(File),
    ok = file:write_file(File, Fun(Bytes)).
