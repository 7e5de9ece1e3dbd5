%% @private
%% @doc Lists of keys, of a replica or of a snapshot, by its call that returns the least key of a leaf above a key.
-module(antientropy_keys).

-export([all/2, of_leaf/3, fold/4]).

-export_type([key_after/0]).

-type handle() :: antientropy:replica() | antientropy_snapshot:snapshot().

-type key_after() :: fun(
    (Handle :: handle(), Leaf :: non_neg_integer(), Key :: binary()) -> {ok, binary()} | antientropy:refused()
).

%% @doc Returns all keys: programs call {@link antientropy:keys/1} or {@link antientropy_snapshot:keys/1}.
-spec all(key_after(), Handle :: handle()) -> {ok, [binary()]} | antientropy:refused().
all(KeyAfter, Handle) ->
    reversed(fold(fun prepend/2, [], KeyAfter, Handle)).

%% @doc Returns the keys of a leaf: programs call {@link antientropy:keys/2} or {@link antientropy_snapshot:keys/2}.
-spec of_leaf(key_after(), Handle :: handle(), Leaf :: non_neg_integer()) ->
    {ok, [binary()]} | antientropy:refused().
of_leaf(KeyAfter, Handle, Leaf) ->
    reversed(fold_leaf(fun prepend/2, [], KeyAfter, Handle, Leaf, <<>>)).

%% @doc Folds over the keys: programs call {@link antientropy:fold_keys/3} or {@link antientropy_snapshot:fold_keys/3}.
-spec fold(fun((Key :: binary(), Acc) -> Acc), Acc, key_after(), Handle :: handle()) ->
    {ok, Acc} | antientropy:refused().
fold(Fun, Acc, KeyAfter, Handle) ->
    fold_leaves(Fun, Acc, KeyAfter, Handle, 0).

fold_leaves(Fun, Acc, KeyAfter, Handle, Leaf) ->
    case fold_leaf(Fun, Acc, KeyAfter, Handle, Leaf, <<>>) of
        {ok, Next} -> fold_leaves(Fun, Next, KeyAfter, Handle, Leaf + 1);
        {error, bad_message} -> {ok, Acc};
        Refused -> Refused
    end.

fold_leaf(Fun, Acc, KeyAfter, Handle, Leaf, After) ->
    case KeyAfter(Handle, Leaf, After) of
        {ok, Key} -> fold_leaf(Fun, Fun(Key, Acc), KeyAfter, Handle, Leaf, Key);
        {error, no_version} -> {ok, Acc};
        Refused -> Refused
    end.

prepend(Key, Keys) -> [Key | Keys].

reversed({ok, Keys}) -> {ok, lists:reverse(Keys)};
reversed(Refused) -> Refused.
