%% @doc A replica as a process that other Erlang nodes reach under its name.
%%
%% It serves a partner's asks from its last snapshot while it takes puts. It keeps everything in memory: a store writes
%% a version to its disk before a response, an offer or an answer contains it (docs/EMBEDDING_C.md, "Restarts").
-module(replica_server).
-behaviour(gen_server).

-export([start_link/1, put/4, get/2, sync/2]).
-export([init/1, handle_call/3, handle_cast/2]).

-record(state, {
    number :: pos_integer(),
    replica :: antientropy:replica(),
    offers = 0 :: non_neg_integer(),
    snapshot :: antientropy_snapshot:snapshot() | undefined
}).

%% @doc Starts the replica of this Erlang node. Its clocks have the number as their node.
start_link(Number) ->
    gen_server:start_link({local, ?MODULE}, ?MODULE, Number, []).

%% @doc Puts a value at the replica of an Erlang node.
put(Node, Key, Value, Context) ->
    gen_server:call({?MODULE, Node}, {put, Key, Value, Context}).

%% @doc Returns the versions of a key at the replica of an Erlang node.
get(Node, Key) ->
    gen_server:call({?MODULE, Node}, {get, Key}).

%% @doc Syncs the replica of an Erlang node from the one of Partner.
sync(Node, Partner) ->
    gen_server:call({?MODULE, Node}, {sync, Partner}, infinity).

init(Number) ->
    {ok, Replica} = antientropy:new(),
    {ok, #state{number = Number, replica = Replica}}.

handle_call({put, Key, Value, Context}, _From, #state{number = Number, replica = Replica} = State) ->
    {reply, antientropy:put(Replica, Number, Key, Value, Context), State};
handle_call({get, Key}, _From, #state{replica = Replica} = State) ->
    {reply, antientropy:get(Replica, Key), State};
handle_call({sync, Partner}, From, #state{replica = Replica} = State) ->
    %% Another process syncs, while this one serves calls, maybe of the same partner.
    spawn_link(fun() -> gen_server:reply(From, take_from(Partner, Replica)) end),
    {noreply, State};
handle_call(offer, _From, #state{number = Number, replica = Replica, offers = Offers} = State) ->
    {ok, Snapshot} = antientropy:snapshot(Replica),
    {ok, Offer} = antientropy_snapshot:offer(Snapshot, Offers + 1),
    {reply, {Number, Offer}, State#state{offers = Offers + 1, snapshot = Snapshot}};
handle_call({serve, Asks}, _From, #state{offers = Number, snapshot = Snapshot} = State) ->
    {reply, [antientropy_snapshot:serve(Snapshot, Number, Ask) || Ask <- Asks], State}.

handle_cast(_, State) ->
    {noreply, State}.

%% Syncs the replica from a new offer of a partner.
take_from(Partner, Replica) ->
    {Number, Offer} = gen_server:call({?MODULE, Partner}, offer),
    Reach = fun(Asks) -> gen_server:call({?MODULE, Partner}, {serve, Asks}) end,
    antientropy:sync(Replica, Number, Offer, Reach).
