%% @doc The application `cluster': a node of a Dynamo-style store.
-module(cluster_app).
-behaviour(application).

-export([boot/0, refuse/1]).
-export([start/2, stop/1]).

%% @doc Starts the application, and the node ends with it. {@link cluster_life} prints `ready' when it serves.
-spec boot() -> ok.
boot() ->
    case application:ensure_all_started(cluster, permanent) of
        {ok, _} -> ok;
        {error, Reason} -> refuse(["the node can't start: ", cluster_report:text(Reason)])
    end.

%% @doc Ends the node with a line that has the reason why it doesn't start.
-spec refuse(Why :: unicode:chardata()) -> no_return().
refuse(Why) ->
    io:format(standard_error, "~ts~n", [Why]),
    erlang:halt(1).

%% Loads the modules of an application, before many requests at once ask for them.
load(Application) ->
    _ = application:load(Application),
    {ok, Modules} = application:get_key(Application, modules),
    ok = code:ensure_modules_loaded(Modules).

%% @private
start(_, _) ->
    ok = cluster_report:install(),
    ok = lists:foreach(fun load/1, [inets, jiffy, antientropy, cluster]),
    case cluster_settings:check() of
        ok -> check_node();
        {error, Why} -> refuse(Why)
    end,
    ok = make_private(cluster_settings:folder()),
    cluster_sup:start_link().

%% Checks that this node has the name by which the others call it.
check_node() ->
    Wanted = cluster_ring:node_of(cluster_ring:here()),
    node() =:= Wanted orelse refuse(io_lib:format("this node is ~ts, and its place is that of ~ts", [node(), Wanted])).

%% Makes the folder private: nobody else may read the values of clients.
make_private(Folder) ->
    case filelib:ensure_path(Folder) of
        ok -> cluster_disk:done(Folder, file:change_mode(Folder, 8#700));
        {error, Reason} -> refuse(io_lib:format("there is no folder ~ts: ~tp", [Folder, Reason]))
    end.

%% @private
stop(_) ->
    ok.
