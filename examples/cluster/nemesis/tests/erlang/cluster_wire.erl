%% @doc Serves each call.
-module(cluster_wire).

-export([serve/5]).

%% @doc Calls a function.
-spec serve(cluster_ring:place(), Digest :: binary(), module(), Function :: atom(), Arguments :: [term()]) -> term().
serve(_, _, Module, Function, Arguments) -> apply(Module, Function, Arguments).
