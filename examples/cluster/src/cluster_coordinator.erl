%% @doc Puts and gets of clients (the Dynamo paper, sections 4.3 to 4.6).
%%
%% The coordinator of a key is one of its holders. This node is asked first if it is a holder. If it isn't, or refuses
%% the request, the others are asked: see {@link cluster_errand}.
-module(cluster_coordinator).

-export([put/4, get/2]).
-export([put_claimed/6, get_here/3]).

-export_type([stored/0, found/0]).

%% The kind of call under which {@link cluster_patience} has the latency of puts of this node's clients.
-define(PUT, {?MODULE, put}).
-define(MOST_PAUSE_MS, 50).

-type stored() :: #{coordinator := cluster_ring:place(), clock := antientropy:clock(), on := [cluster_ring:place()]}.
-type found() :: #{coordinator := cluster_ring:place(), versions := [antientropy:version()]}.

%% @doc Puts a version of a key, and returns once W disks have it. Refused: `bad_key', `bad_context' (a number that
%% isn't a life of a place), what {@link cluster_range:put/4} refuses, `starting', `down' (no holder, or too few nodes,
%% answered), `hints_full'.
-spec put(Key :: binary(), antientropy:value(), Context :: antientropy:clock_like(), W :: pos_integer()) ->
    {ok, stored()} | cluster_refusal:refused().
put(Key, Value, Context, W) ->
    case cluster_clock:are_lives(Context) andalso cluster_ring:range(Key) of
        {ok, Range} ->
            Begun = erlang:monotonic_time(microsecond),
            Here = fun() -> put_here(Range, Key, Value, Context, W) end,
            raced(ask(Range, Here, {put, [Range, Key, Value, Context, W]}), Begun);
        {error, Name} ->
            {refused, Name};
        false ->
            {refused, bad_context}
    end.

%% Returns the outcome of a put. If it is stale everywhere, its client has lost a race: the refusal waits for about as
%% long as puts take here, so that the client can read the winner. A retry at once would lose again, and hold up the
%% others.
raced({ok, _} = Stored, Begun) ->
    ok = cluster_patience:note(cluster_ring:here(), ?PUT, erlang:monotonic_time(microsecond) - Begun),
    Stored;
raced({refused, stale_context} = Refused, _) ->
    ok = timer:sleep(min(?MOST_PAUSE_MS, cluster_patience:ms(cluster_ring:here(), ?PUT))),
    Refused;
raced(Refused, _) ->
    Refused.

%% @doc Returns the versions of a key from R replicas. Refused: `bad_key', what {@link cluster_rows:read/3} refuses,
%% `starting'.
-spec get(Key :: binary(), R :: pos_integer()) -> {ok, found()} | cluster_refusal:refused().
get(Key, R) ->
    case cluster_ring:range(Key) of
        {ok, Range} -> ask(Range, fun() -> get_here(Range, Key, R) end, {get, [Range, Key, R]});
        {error, Name} -> {refused, Name}
    end.

%% Asks this node if it is a holder, and then the others.
ask(Range, Here, Request) ->
    Others = cluster_ring:partners(Range),
    case lists:member(cluster_ring:here(), cluster_ring:holders(Range)) andalso Here() of
        {refused, Name} -> ask_others(reachable(Others, Request, Name), Request, Name);
        false -> ask_others(Others, Request, if_none_answers(cluster_life:is_ready()));
        Answer -> Answer
    end.

if_none_answers(true) -> down;
if_none_answers(false) -> starting.

%% Returns the holders to ask next. A get that was refused as `down' has just asked those that are down.
reachable(Others, {get, _}, down) -> lists:filter(fun cluster_wire:is_up/1, Others);
reachable(Others, _, _) -> Others.

ask_others(Others, Request, Refused) ->
    case cluster_refusal:is_final(Refused) of
        true -> {refused, Refused};
        false -> cluster_errand:run(Request, Others, Refused)
    end.

%% ---- requests at a holder

%% @private
%% @doc Puts for the node that gave a claim, or returns `unclaimed' and does nothing.
-spec put_claimed(cluster_claims:claim(), cluster_ring:range(), Key, antientropy:value(), Context, W) ->
    {ok, stored()} | cluster_refusal:refused() | unclaimed when
    Key :: binary(), Context :: antientropy:clock_like(), W :: pos_integer().
put_claimed(Claim, Range, Key, Value, Context, W) ->
    case cluster_claims:claim(Claim) of
        true -> put_here(Range, Key, Value, Context, W);
        false -> unclaimed
    end.

%% Puts a version at this node, and then at the other holders or at carriers.
put_here(Range, Key, Value, Context, W) ->
    Begun = erlang:monotonic_time(microsecond),
    Life = cluster_life:number(),
    case cluster_life:is_ready() andalso cluster_range:put(Range, Key, Value, Context) of
        {ok, #{clock := Clock} = Version} ->
            Spread = cluster_copies:spread(Range, Key, Version, W),
            ok = cluster_slots:sample(erlang:monotonic_time(microsecond) - Begun),
            stored(Spread, Clock, Life =:= cluster_life:number());
        {error, Name} ->
            {refused, Name};
        false ->
            {refused, starting}
    end.

%% Acknowledges nothing under a life that was given up meanwhile.
stored({ok, On}, Clock, true) -> {ok, #{coordinator => cluster_ring:here(), clock => Clock, on => On}};
stored({ok, _}, _, false) -> {perhaps, down};
stored(Refused, _, _) -> Refused.

%% @private
%% @doc Returns the versions of a key from this node's range and from other holders.
-spec get_here(cluster_ring:range(), Key :: binary(), R :: pos_integer()) ->
    {ok, found()} | cluster_refusal:refused().
get_here(Range, Key, R) ->
    case cluster_life:is_ready() andalso cluster_rows:read(Range, Key, R) of
        {ok, Versions} -> {ok, #{coordinator => cluster_ring:here(), versions => Versions}};
        {refused, Name} -> {refused, Name};
        false -> {refused, starting}
    end.
