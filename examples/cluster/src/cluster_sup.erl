%% @doc The supervisor of a node. {@link cluster_life} starts {@link cluster_store} below it.
-module(cluster_sup).
-behaviour(supervisor).

-export([start_link/0]).
-export([init/1]).

%% @doc Starts the processes of a node.
-spec start_link() -> {ok, pid()} | {error, term()}.
start_link() ->
    supervisor:start_link({local, ?MODULE}, ?MODULE, []).

%% @private
init([]) ->
    %% (This process owns them, so they last as long as the node.)
    ok = cluster_metrics:begin_table(),
    ok = cluster_patience:begin_table(),
    ok = cluster_wire:begin_table(),
    ok = cluster_rows:begin_counter(),
    %% None of them depends on the process of another one: their shared state is in tables and terms. Processes that do
    %% depend on others are below {@link cluster_store}.
    Servers = [child(Module, Module, []) || Module <- [cluster_space, cluster_lives, cluster_claims, cluster_wire]],
    Fronts = [child({cluster_http, Front}, cluster_http, [Front]) || Front <- [clients, admin]],
    Life = child(cluster_life, cluster_life, []),
    {ok, {#{strategy => one_for_one, intensity => 5, period => 10}, Servers ++ Fronts ++ [Life]}}.

child(Id, Module, Arguments) ->
    #{id => Id, start => {Module, start_link, Arguments}}.
