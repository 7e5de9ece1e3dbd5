%% @doc The supervisor of everything that needs a life. A process that ends abnormally starts again from its disk.
%%
%% Ranges and hints don't depend on each other, and each kind has a separate count of crashes. The background work
%% depends on both: numbers of hints are valid only in the process that keeps them, so it ends and restarts with that
%% process.
-module(cluster_store).
-behaviour(supervisor).

-export([start/0, stop/0, start_link/0, start_link/1]).
-export([init/1]).

-define(INTENSITY, #{intensity => 5, period => 10}).

-type part() :: store | ranges | background.

%% @doc Starts the processes, under {@link cluster_sup}.
-spec start() -> {ok, pid()} | {error, term()}.
start() ->
    supervisor:start_child(cluster_sup, #{
        id => ?MODULE, start => {?MODULE, start_link, []}, restart => temporary, type => supervisor
    }).

%% @doc Ends the processes, if they run.
-spec stop() -> ok.
stop() ->
    case supervisor:terminate_child(cluster_sup, ?MODULE) of
        ok -> ok;
        {error, not_found} -> ok
    end.

%% @private
-spec start_link() -> supervisor:startlink_ret().
start_link() ->
    supervisor:start_link({local, ?MODULE}, ?MODULE, store).

%% @private
-spec start_link(part()) -> supervisor:startlink_ret().
start_link(Part) ->
    supervisor:start_link(?MODULE, Part).

%% @private
init(store) ->
    {ok, {?INTENSITY#{strategy => rest_for_one}, [part(ranges), child(cluster_hints), part(background)]}};
init(ranges) ->
    Ranges = [child({cluster_range, Range}, cluster_range, [Range]) || Range <- cluster_ring:held()],
    {ok, {?INTENSITY#{strategy => one_for_one}, Ranges}};
init(background) ->
    %% (A process that has borrowed a slot ends with the process that lent it.)
    Children = [child(Module) || Module <- [cluster_slots, cluster_handoff, cluster_repair]],
    {ok, {?INTENSITY#{strategy => rest_for_one}, Children}}.

part(Part) ->
    #{id => Part, start => {?MODULE, start_link, [Part]}, type => supervisor}.

child(Module) ->
    child(Module, Module, []).

child(Id, Module, Arguments) ->
    #{id => Id, start => {Module, start_link, Arguments}}.
