%% @doc Unknown calls and messages of a process: each is logged in a line, and the process continues.
-module(cluster_stray).

-export([call/2, message/2]).

%% @doc Returns the answer to an unknown call, and logs it.
-spec call(Process :: atom(), Request :: term()) -> {error, unknown_call}.
call(Process, Request) ->
    ok = logger:error("~tp got a call that it doesn't know: ~tp", [Process, Request]),
    {error, unknown_call}.

%% @doc Logs an unknown message.
-spec message(Process :: atom(), Message :: term()) -> ok.
message(Process, Message) ->
    logger:warning("~tp got a message that it doesn't know: ~tp", [Process, Message]).
