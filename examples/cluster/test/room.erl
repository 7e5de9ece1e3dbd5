%% @doc A folder for a test, and the settings of a node in it.
-module(room).

-export([test/2, full_test/2, plain/1, hosts/1, stop/1, kill/1, until/1, all_at_once/2, folder/1, flip/1]).
-export([elsewhere/2, key/1, free_port/0, defaults/1]).

%% A test that hangs ends after this time. A machine that is busy with other work doesn't make a test fail.
-define(SECONDS, 600).

-define(LIFE, 33).
-define(STARTED, [cluster_space, cluster_lives, cluster_claims, cluster_wire]).

%% @doc Returns a test as the node of place 1 in its first life, with a new disk and these settings. It may start the
%% range 0 and the hints. With the setting `{life, none}' the folder is empty.
test(Settings, Test) ->
    {timeout, ?SECONDS, fun() -> run(Settings, Test, fun(_) -> ok end, fun(_) -> ok end) end}.

%% @doc Returns a test whose disk has 4 MB, or one that does nothing if a disk can't be made.
full_test(Settings, Test) ->
    Mount = fun(Folder) -> "" = os:cmd("mount -t tmpfs -o size=4m none " ++ Folder), ok end,
    Unmount = fun(Folder) -> "" = os:cmd("umount -l " ++ Folder), ok end,
    case can_mount() of
        true -> {timeout, ?SECONDS, fun() -> run(Settings, Test, Mount, Unmount) end};
        false -> []
    end.

%% @doc Returns a test that needs no folder. (EUnit would give it five seconds.)
plain(Test) ->
    {timeout, ?SECONDS, Test}.

can_mount() ->
    Folder = folder("mount"),
    ok = filelib:ensure_path(Folder),
    os:cmd("mount -t tmpfs -o size=1m none " ++ Folder ++ " && umount " ++ Folder) =:= "".

run(Settings, Test, Mount, Unmount) ->
    Folder = folder("room-" ++ integer_to_list(erlang:unique_integer([positive]))),
    ok = filelib:ensure_path(Folder),
    ok = Mount(Folder),
    {ok, _} = application:ensure_all_started(antientropy),
    _ = application:load(cluster),
    [ok = application:set_env(cluster, Name, Value) || {Name, Value} <- defaults(Folder) ++ Settings],
    ok = cluster_patience:begin_table(),
    ok = cluster_wire:begin_table(),
    ok = cluster_metrics:begin_table(),
    ok = cluster_rows:begin_counter(),
    [{ok, _} = Module:start_link() || Module <- ?STARTED],
    try
        ok = begin_life(proplists:get_value(life, Settings, ?LIFE)),
        Test(Folder)
    after
        Names = [cluster_range_0, cluster_hints, cluster_life | ?STARTED],
        [ok = kill(Name) || Name <- Names, whereis(Name) =/= undefined],
        [true = ets:delete(Table) || Table <- [cluster_patience, cluster_wire, cluster_metrics]],
        ok = Unmount(Folder),
        ok = file:del_dir_r(Folder)
    end.

%% @doc Returns the settings of a test: five places of one host, and four ranges. No round of repair begins by itself.
defaults(Folder) ->
    [
        {place, 1},
        {places, hosts([1, 2, 3, 4, 5])},
        {bits, 2},
        {quorums, {3, 2, 2}},
        {folder, Folder},
        {limit, 1000},
        {checkpoint_entries, 1000},
        {hint_bytes, 16777216},
        {round_ms, 3600000},
        {http_token, none}
    ].

%% @doc Returns places of this host.
hosts(Places) ->
    [{Place, "127.0.0.1"} || Place <- Places].

%% @doc Returns a port that is free.
free_port() ->
    {ok, Socket} = gen_tcp:listen(0, [{ip, {127, 0, 0, 1}}]),
    {ok, Port} = inet:port(Socket),
    ok = gen_tcp:close(Socket),
    Port.

begin_life(none) ->
    ok;
begin_life(Life) ->
    ok = cluster_lives:begin_anew(),
    ok = cluster_lives:learn([{1, 1}]),
    ok = cluster_folder:make(1),
    cluster_life:enter({ready, Life}).

%% @doc Ends a process as its supervisor does.
stop(Name) ->
    gen_server:stop(Name, shutdown, infinity).

%% @doc Ends a process like a crash: nothing is closed in order.
kill(Name) ->
    Process = whereis(Name),
    Monitor = monitor(process, Process),
    true = unlink(Process),
    exit(Process, kill),
    receive
        {'DOWN', Monitor, process, _, _} -> ok
    end.

%% @doc Returns when a condition is true.
until(Condition) ->
    case Condition() of
        true ->
            ok;
        false ->
            timer:sleep(20),
            until(Condition)
    end.

%% @doc Calls a function for each item, in separate processes, and returns the results in any order.
all_at_once(Fun, Items) ->
    Parent = self(),
    [spawn_link(fun() -> Parent ! {result, Fun(Item)} end) || Item <- Items],
    [
        receive
            {result, Result} -> Result
        end
     || _ <- Items
    ].

%% @doc Returns the path of a folder of this name.
folder(Name) ->
    filename:join(os:getenv("CLUSTER_ROOM"), Name).

%% @doc Flips a bit in the middle of a file.
flip(File) ->
    {ok, Bytes} = file:read_file(File),
    Half = byte_size(Bytes) div 2,
    <<Before:Half/binary, Byte, After/binary>> = Bytes,
    ok = file:write_file(File, <<Before/binary, (Byte bxor 4), After/binary>>).

%% @doc Runs an expression at another node with the folder and the settings of this test, and returns its output and its
%% status.
elsewhere(Settings, Expression) ->
    All = maps:merge(maps:from_list(application:get_all_env(cluster)), maps:from_list(Settings)),
    Words = ["-cluster"] ++ lists:append([[atom_to_list(Name), quoted(Value)] || {Name, Value} <- maps:to_list(All)]),
    Paths = ["-pa", filename:dirname(code:which(?MODULE))],
    Begin = "application:load(cluster), {ok, _} = application:ensure_all_started(antientropy), "
        "cluster_metrics:begin_table(), cluster_report:install(), cluster_space:start_link(), "
        "cluster_lives:start_link(), "
        "cluster_life:enter({ready, 33}), ",
    Run = ["-noinput"] ++ Paths ++ Words ++ ["-eval", Begin ++ Expression ++ ", halt(0)."],
    Port = open_port({spawn_executable, os:find_executable("erl")}, [{args, Run}, exit_status, stderr_to_stdout]),
    output(Port, "").

quoted(Value) -> lists:flatten(io_lib:format("~0p", [Value])).

output(Port, Output) ->
    receive
        {Port, {data, More}} -> output(Port, Output ++ More);
        {Port, {exit_status, Status}} -> {Status, Output}
    end.

%% @doc Returns one of the keys of the range 0, by its number from 1.
key(Number) ->
    lists:nth(Number, keys()).

keys() ->
    case persistent_term:get(?MODULE, none) of
        none ->
            All = [<<"key ", (integer_to_binary(Number))/binary>> || Number <- lists:seq(1, 1000)],
            Keys = [Key || Key <- All, cluster_ring:range(Key) =:= {ok, 0}],
            ok = persistent_term:put(?MODULE, Keys),
            Keys;
        Keys ->
            Keys
    end.
