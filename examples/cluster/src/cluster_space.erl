%% @doc Free space on the disk of this node. While the disk is full, the node is read-only.
%%
%% A process that finds it full reports that here. Then a file of 1 MB is written, synced and removed, again and again,
%% until it fits.
-module(cluster_space).
-behaviour(gen_server).

-export([start_link/0, is_full/0, full/0]).
-export([init/1, handle_call/3, handle_cast/2, handle_info/2]).

-define(AGAIN_MS, 1000).
-define(PROBE, "probe.new").
-define(PROBE_BYTES, (1 bsl 20)).

%% @doc Starts the process that looks for space.
-spec start_link() -> {ok, pid()} | {error, term()}.
start_link() ->
    gen_server:start_link({local, ?MODULE}, ?MODULE, [], []).

%% @doc Returns true while the disk is full.
-spec is_full() -> boolean().
is_full() ->
    persistent_term:get(?MODULE, false).

%% @doc Reports that a write found the disk full.
-spec full() -> ok.
full() ->
    ok = persistent_term:put(?MODULE, true),
    gen_server:cast(?MODULE, full).

%% The state is `full' once that was printed.
%% @private
init([]) ->
    {ok, look(room)}.

%% @private
handle_call(Request, _, State) ->
    {reply, cluster_stray:call(?MODULE, Request), State}.

%% @private
handle_cast(full, room) ->
    {noreply, now_full()};
handle_cast(full, full) ->
    {noreply, full};
handle_cast(Message, State) ->
    ok = cluster_stray:message(?MODULE, Message),
    {noreply, State}.

%% @private
handle_info(look, State) ->
    {noreply, look(State)};
handle_info(Message, State) ->
    ok = cluster_stray:message(?MODULE, Message),
    {noreply, State}.

now_full() ->
    ok = persistent_term:put(?MODULE, true),
    ok = cluster_metrics:count(events, [{event, full}]),
    io:format(standard_error, "the disk is full: place ~b is read-only until there is room~n", [cluster_ring:here()]),
    look_again().

look_again() ->
    _ = erlang:send_after(?AGAIN_MS, self(), look),
    full.

look(State) ->
    case {probe(filename:join(cluster_settings:folder(), ?PROBE)), State} of
        {ok, room} ->
            ok = persistent_term:put(?MODULE, false),
            room;
        {ok, full} ->
            ok = persistent_term:put(?MODULE, false),
            ok = cluster_metrics:count(events, [{event, room}]),
            io:format(standard_error, "there is room on the disk of place ~b again~n", [cluster_ring:here()]),
            room;
        {full, room} ->
            now_full();
        {full, full} ->
            look_again()
    end.

probe(File) ->
    Probed = cluster_disk:full_or_done(File, write(File)),
    ok = cluster_disk:remove(File),
    Probed.

write(File) ->
    case file:open(File, [raw, write, binary]) of
        {ok, Device} ->
            Written = file:write(Device, <<0:(8 * ?PROBE_BYTES)>>),
            Synced = file:sync(Device),
            Closed = file:close(Device),
            hd([Failed || {error, _} = Failed <- [Written, Synced, Closed]] ++ [ok]);
        Failed ->
            Failed
    end.
