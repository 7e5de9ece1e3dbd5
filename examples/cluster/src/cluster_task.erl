%% @doc Processes with one task each, whose results others wait for.
%%
%% A task that crashes has no result: the crash is logged here, and the waiting process gets `crashed'.
-module(cluster_task).

-export([start/1, start_link/1, result/2, crashed/2, forget/1]).
-export([run/1, run/2]).

-export_type([task/0]).

-type task() :: {pid(), reference()}.

%% @doc Starts a task. Its end is a message `{'DOWN', Monitor, process, Process, Reason}'.
-spec start(fun(() -> term())) -> task().
start(Task) ->
    spawn_monitor(?MODULE, run, [Task]).

%% @doc Starts a task that ends with this process. This process doesn't end with the task.
-spec start_link(fun(() -> term())) -> task().
start_link(Task) ->
    spawn_opt(?MODULE, run, [Task, self()], [link, monitor]).

%% @private
-spec run(fun(() -> term())) -> no_return().
run(Task) ->
    exit({?MODULE, Task()}).

%% @private
-spec run(fun(() -> term()), Owner :: pid()) -> no_return().
run(Task, Owner) ->
    End = end_of(Task),
    true = unlink(Owner),
    exit(End).

end_of(Task) ->
    try
        {?MODULE, Task()}
    catch
        _:Reason:Stack -> {Reason, Stack}
    end.

%% @doc Returns the result of a task by the reason for which its process ended.
-spec result(What :: atom(), Reason :: term()) -> {ok, Result :: term()} | crashed.
result(_, {?MODULE, Result}) ->
    {ok, Result};
result(What, Reason) ->
    crashed(What, Reason).

%% @doc Logs that a task crashed.
-spec crashed(What :: atom(), Reason :: term()) -> crashed.
crashed(What, Reason) ->
    ok = logger:error("a task of ~tp crashed: ~tp", [What, Reason]),
    crashed.

%% @doc Lets tasks continue, without anyone waiting for their results.
-spec forget([Monitor :: reference()]) -> ok.
forget(Monitors) ->
    lists:foreach(fun(Monitor) -> true = demonitor(Monitor, [flush]) end, Monitors).
