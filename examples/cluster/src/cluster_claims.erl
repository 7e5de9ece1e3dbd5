%% @doc Claims of puts that this node forwards, so that each put is done at most once.
%%
%% The node that has the client is the *origin* of a put. It makes a claim, and gives it to the holders that it asks. A
%% holder takes the claim before it puts. The origin withdraws it before it gives up. Each step is atomic, on one entry
%% of the origin's table, and only the first step counts: of all messages with a claim, including late and repeated
%% ones, at most one puts, and none after a withdrawal that counted. The origin makes another claim for a put only after
%% the holder that took the previous one has refused it.
%%
%% - *The reply to a take is lost, or its call fails:* the holder doesn't put. The origin can't know that: its
%%   withdrawal doesn't count, and the put may have happened (`perhaps').
%% - *The reply to the put is lost:* the claim is taken, so no other holder puts (`perhaps').
%% - *The holder is paused:* if it takes the claim when it resumes, another holder has it, or it is withdrawn. If it
%%   took the claim before the pause, it puts when it resumes, and no other holder does.
%% - *The origin is paused, ends, or loses its table:* nobody takes the claim. A claim without an entry counts as taken
%%   for the origin, and as withdrawn for a holder. A restarted node makes different references.
-module(cluster_claims).
-behaviour(gen_server).

-export([start_link/0, new/0, give/2, is_taken/1, withdraw/1, claim/1, take/2]).
-export([init/1, handle_call/3, handle_cast/2, handle_info/2]).

-export_type([claim/0]).

-define(SWEEP_MS, 10000).

-type claim() :: {Origin :: cluster_ring:place(), reference()}.

%% The table counts the steps on a claim, and has the times at which it was made and at which each holder got it, in
%% microseconds: `{Reference, Steps, Made}' and `{{Reference, Holder}, given, Given}'.

%% @doc Starts the process that owns the table, and removes old claims.
-spec start_link() -> {ok, pid()} | {error, term()}.
start_link() ->
    gen_server:start_link({local, ?MODULE}, ?MODULE, [], []).

%% @doc Makes a claim.
-spec new() -> claim().
new() ->
    Reference = make_ref(),
    true = ets:insert(?MODULE, {Reference, 0, now_micros()}),
    {cluster_ring:here(), Reference}.

%% @doc Gives a claim to a holder, in addition to those that have it.
-spec give(claim(), Holder :: cluster_ring:place()) -> ok.
give({_, Reference}, Holder) ->
    true = ets:insert(?MODULE, {{Reference, Holder}, given, now_micros()}),
    ok.

%% @doc Returns true if a holder has taken the claim, or it is withdrawn.
-spec is_taken(claim()) -> boolean().
is_taken({_, Reference}) ->
    case ets:lookup(?MODULE, Reference) of
        [{_, 0, _}] -> false;
        _ -> true
    end.

%% @doc Withdraws a claim. Returns true if no holder has taken it, so that none can.
-spec withdraw(claim()) -> boolean().
withdraw({_, Reference}) ->
    is_first(Reference).

%% @doc Takes a claim from the origin that gave it to this node. Returns true if this node may put now.
-spec claim(claim()) -> boolean().
claim({Origin, Reference}) ->
    cluster_wire:call(Origin, ?MODULE, take, [Reference, cluster_ring:here()]) =:= {ok, true}.

%% @doc Takes a claim for the holder that calls, to which this node gave it. Returns true once for a claim, and never
%% after its withdrawal. Records the time since the claim was given as the holder's latency, even if the holder is late.
-spec take(reference(), Holder :: cluster_ring:place()) -> boolean().
take(Reference, Holder) ->
    case ets:lookup(?MODULE, {Reference, Holder}) of
        [{_, given, Given}] ->
            ok = cluster_patience:note(Holder, {?MODULE, take}, now_micros() - Given),
            is_first(Reference);
        [] ->
            false
    end.

%% Takes a step on a claim, and returns true if it is the first one.
is_first(Reference) ->
    try
        ets:update_counter(?MODULE, Reference, 1) =:= 1
    catch
        error:badarg -> false
    end.

now_micros() ->
    erlang:monotonic_time(microsecond).

%% @private
init([]) ->
    ?MODULE = ets:new(?MODULE, [named_table, public, {write_concurrency, true}]),
    {ok, _} = timer:send_interval(?SWEEP_MS, sweep),
    {ok, none}.

%% @private
handle_call(Request, _, none) ->
    {reply, cluster_stray:call(?MODULE, Request), none}.

%% @private
handle_cast(Message, none) ->
    ok = cluster_stray:message(?MODULE, Message),
    {noreply, none}.

%% @private
handle_info(sweep, none) ->
    Before = now_micros() - 1000 * ?SWEEP_MS,
    _ = ets:select_delete(?MODULE, [{{'_', '_', '$1'}, [{'<', '$1', Before}], [true]}]),
    {noreply, none};
handle_info(Message, none) ->
    ok = cluster_stray:message(?MODULE, Message),
    {noreply, none}.
