%% @doc All messages between nodes: calls of a function at another place, over Erlang's distribution.
%%
%% A place counts as down if it doesn't answer a call within 500 milliseconds. That includes a paused node, which the
%% distribution doesn't report yet. A call of many bytes has more time ({@link limit_ms/1}).
-module(cluster_wire).
-behaviour(gen_server).

-export([begin_table/0, start_link/0, call/4, call/5, limit_ms/0, limit_ms/1, message_bytes/0]).
-export([down/0, is_up/1, up_first/1]).
-export([serve/5]).
-export([init/1, handle_call/3, handle_cast/2, handle_info/2]).

-define(LIMIT_MS, 500).
%% Minimum pace of a link that counts as up: 100 KB per second.
-define(BYTES_PER_MS, 100).
-define(MESSAGE_BYTES, 1_000_000).
-define(AGAIN_MS, 1000).

%% @doc Makes the table of the places that are down, which this process owns.
-spec begin_table() -> ok.
begin_table() ->
    ?MODULE = ets:new(?MODULE, [named_table, public, {read_concurrency, true}]),
    ok.

%% @doc Starts the process that listens to OTP's monitor of nodes, and calls places that are down again.
-spec start_link() -> {ok, pid()} | {error, term()}.
start_link() ->
    gen_server:start_link({local, ?MODULE}, ?MODULE, [], []).

%% @doc Returns the time limit of a call, in milliseconds.
-spec limit_ms() -> pos_integer().
limit_ms() ->
    ?LIMIT_MS.

%% @doc Returns the time limit of a call that carries some bytes there and back, in milliseconds.
-spec limit_ms(Bytes :: non_neg_integer()) -> pos_integer().
limit_ms(Bytes) ->
    ?LIMIT_MS + Bytes div ?BYTES_PER_MS.

%% @doc Returns the maximum number of bytes of the parts of a result together. A single part may have more.
-spec message_bytes() -> pos_integer().
message_bytes() ->
    ?MESSAGE_BYTES.

%% @doc Calls a function at another place.
-spec call(cluster_ring:place(), module(), Function :: atom(), Arguments :: [term()]) -> {ok, Result :: term()} | down.
call(Place, Module, Function, Arguments) ->
    call(Place, Module, Function, Arguments, ?LIMIT_MS).

%% @doc Calls a function at another place, with a limit in milliseconds. It may have been called even if the place now
%% counts as down.
-spec call(cluster_ring:place(), module(), Function :: atom(), Arguments :: [term()], LimitMs :: pos_integer()) ->
    {ok, Result :: term()} | down.
call(Place, Module, Function, Arguments, LimitMs) ->
    Begun = erlang:monotonic_time(microsecond),
    Result =
        try
            {ok, cluster_link:call(Place, Module, Function, Arguments, LimitMs)}
        catch
            exit:{exception, settings_differ} ->
                ok = note_difference(Place),
                down;
            error:{exception, Reason, Stack} ->
                logger:error("a call of ~tp at place ~b failed: ~tp ~tp", [Module, Place, Reason, Stack]),
                down;
            _:_ ->
                down
        end,
    note(Place, Result),
    Result =:= down orelse
        cluster_patience:note(Place, {Module, Function}, erlang:monotonic_time(microsecond) - Begun),
    Result.

%% @private
%% @doc Serves a call of another place. Refuses it if the ring's settings differ there: each of the two places is then
%% down for the other.
-spec serve(From :: cluster_ring:place(), Digest :: binary(), module(), Function :: atom(), Arguments :: [term()]) ->
    term().
serve(From, Digest, Module, Function, Arguments) ->
    is_started() orelse exit(starting),
    %% (Otherwise lines that this process logs would go to the calling node.)
    true = group_leader(whereis(init), self()),
    Digest =:= cluster_ring:digest() orelse refuse(From),
    apply(Module, Function, Arguments).

-spec refuse(From :: cluster_ring:place()) -> no_return().
refuse(From) ->
    ok = note_difference(From),
    exit(settings_differ).

%% Logs once for a connection that the settings of a place differ.
note_difference(Place) ->
    case ets:insert_new(?MODULE, {{differs, Place}}) of
        true -> cluster_event:note(settings_differ, [{place, Place}]);
        false -> ok
    end.

%% Returns true once the application has started: other nodes may call before.
is_started() ->
    ets:whereis(?MODULE) =/= undefined.

%% @doc Returns the places whose last call had no answer, or whose node is down.
-spec down() -> [cluster_ring:place()].
down() ->
    lists:sort([Place || {Place} <- ets:tab2list(?MODULE), is_integer(Place)]).

%% @doc Returns false if the place's last call had no answer, or its node is down.
-spec is_up(cluster_ring:place()) -> boolean().
is_up(Place) ->
    not ets:member(?MODULE, Place).

%% @doc Returns places with those that are down at the end.
-spec up_first([cluster_ring:place()]) -> [cluster_ring:place()].
up_first(Places) ->
    {Up, Down} = lists:partition(fun is_up/1, Places),
    Up ++ Down.

%% Notes that a place is down, or is up again and gets its hints.
note(Place, Result) ->
    case {Result, ets:member(?MODULE, Place)} of
        {down, false} ->
            ets:insert_new(?MODULE, {Place}) andalso cluster_event:note(down, [{place, Place}]),
            ok;
        {{ok, _}, true} ->
            ets:take(?MODULE, Place) =:= [] orelse cluster_event:note(up, [{place, Place}]),
            cluster_handoff:wake(Place);
        _ ->
            ok
    end.

no_node(Place) ->
    true = ets:delete(?MODULE, {differs, Place}),
    note(Place, down).

%% @private
init([]) ->
    ok = net_kernel:monitor_nodes(true),
    {ok, _} = timer:send_interval(?AGAIN_MS, call_again),
    {ok, none}.

%% @private
handle_call(Request, _, none) ->
    {reply, cluster_stray:call(?MODULE, Request), none}.

%% @private
handle_cast(Message, none) ->
    ok = cluster_stray:message(?MODULE, Message),
    {noreply, none}.

%% @private
handle_info({nodedown, Node}, none) ->
    [no_node(Place) || Place <- cluster_ring:others(), cluster_ring:node_of(Place) =:= Node],
    {noreply, none};
handle_info({nodeup, _}, none) ->
    {noreply, none};
handle_info(call_again, none) ->
    [spawn(fun() -> call(Place, cluster_ring, here, []) end) || Place <- down()],
    {noreply, none};
handle_info(Message, none) ->
    ok = cluster_stray:message(?MODULE, Message),
    {noreply, none}.
