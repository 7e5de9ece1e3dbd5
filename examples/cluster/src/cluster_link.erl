%% @doc The link between nodes: Erlang's distribution. A test may put another module of this name in its place.
-module(cluster_link).

-export([call/5]).

%% @doc Calls a function at another place by {@link cluster_wire:serve/5}, with a limit in milliseconds. It raises like
%% `erpc:call/5'.
-spec call(cluster_ring:place(), module(), Function :: atom(), Arguments :: [term()], LimitMs :: pos_integer()) ->
    Result :: term().
call(Place, Module, Function, Arguments, LimitMs) ->
    Served = [cluster_ring:here(), cluster_ring:digest(), Module, Function, Arguments],
    erpc:call(cluster_ring:node_of(Place), cluster_wire, serve, Served, LimitMs).
