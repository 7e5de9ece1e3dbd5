%% @private
%% @doc The moment of a replica: calls that hold one, hash it in portions outside the replica's gate, use it and
%% drop it.
%%
%% Another process may hold a later moment meanwhile. A call continues with that one.
-module(antientropy_moment).

-export([snapshot/1, exchange/4, whole/1, hash/2, rehash/1]).

-import(antientropy_call, [result/1]).

-export_type([from/0, portion/0]).

%% Nodes of a portion.
-define(PORTION, 64).

-opaque portion() :: reference().
-type from() :: hold | portion().
%% The beginning of a step: it holds a moment, or hashes and installs a portion.

%% @doc Makes a snapshot: programs call {@link antientropy:snapshot/1}.
-spec snapshot(antientropy:replica()) -> {ok, antientropy_snapshot:snapshot()} | antientropy:refused().
snapshot(Replica) ->
    whole(fun(From, Most) -> antientropy_nif:snapshot_of_moment(Replica, From, Most) end).

%% @doc Opens an exchange: programs call {@link antientropy:exchange/4}.
-spec exchange(antientropy:replica(), Partner :: non_neg_integer(), Offer :: iodata(), Bounds :: map()) ->
    {ok, antientropy_exchange:exchange()} | antientropy:refused().
exchange(Replica, Partner, Offer, Bounds) ->
    whole(fun(From, Most) -> antientropy_nif:exchange_of_moment(Replica, Partner, Offer, Bounds, From, Most) end).

%% @doc Makes steps until the moment is whole and the call is made. If another process has dropped the moment, holds
%% another one.
-spec whole(fun((from(), Most :: pos_integer()) -> term())) -> term().
whole(Step) ->
    whole(Step, hold).

whole(Step, From) ->
    case result(Step(From, ?PORTION)) of
        {portion, Portion} -> whole(Step, Portion);
        {error, dirty} -> whole(Step, hold);
        Result -> Result
    end.

%% @doc Hashes a portion of the moment: programs call {@link antientropy:hash_moment/2}.
-spec hash(antientropy:replica(), Most :: non_neg_integer()) ->
    {ok, Left :: non_neg_integer()} | antientropy:refused().
hash(Replica, Most) ->
    case result(antientropy_nif:take_portion(Replica, Most)) of
        {portion, Portion} ->
            ok = result(antientropy_nif:hash_portion(Portion)),
            result(antientropy_nif:install_portion(Replica, Portion));
        Refused ->
            Refused
    end.

%% @doc Hashes the tree in portions: programs call {@link antientropy:rehash/1}. If puts make more nodes dirty than a
%% portion hashes, the next portion is twice as large.
-spec rehash(antientropy:replica()) -> ok | antientropy:refused().
rehash(Replica) ->
    rehash(Replica, ?PORTION, infinity).

rehash(Replica, Most, Before) ->
    case result(antientropy_nif:rehash_some(Replica, Most)) of
        {ok, 0} -> ok;
        {ok, Left} when Left < Before -> rehash(Replica, Most, Left);
        {ok, Left} -> rehash(Replica, 2 * Most, Left);
        Refused -> Refused
    end.
