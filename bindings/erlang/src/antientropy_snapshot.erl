%% @doc A snapshot of a replica's rows, which {@link antientropy:snapshot/1} makes.
%%
%% It serves a partner's asks while puts change the replica, and may outlive it. Processes may share it, and read it at
%% once, or each close its own that {@link share/1} makes.
-module(antientropy_snapshot).

-export([share/1, close/1, info/1, bytes/1, root/1, digest/3, offer/2, serve/3, rows/2, save/2]).
-export([row/2, key_after/3, keys/1, keys/2, fold_keys/3]).

-import(antientropy_call, [result/1]).

-export_type([snapshot/0, info/0]).

-opaque snapshot() :: reference().
-type info() :: #{
    format := 1 | 2,
    bits := non_neg_integer(),
    range := non_neg_integer(),
    entries := non_neg_integer(),
    root := binary()
}.
%% Format, bits of the ring and range of the rows, the number of entries at the moment of the snapshot, and the digest
%% of the root.

%% @doc Returns another snapshot of the same rows. Copies no row.
%%
%% The rows are freed with the last one.
-spec share(snapshot()) -> {ok, snapshot()} | antientropy:refused().
share(Snapshot) ->
    result(antientropy_nif:snapshot_share(Snapshot)).

%% @doc Frees the memory, unless another snapshot shares the rows. Later calls are refused as `empty'.
-spec close(snapshot()) -> ok.
close(Snapshot) ->
    result(antientropy_nif:snapshot_close(Snapshot)).

%% @doc Returns the range, the entries and the root of a snapshot.
-spec info(snapshot()) -> {ok, info()} | antientropy:refused().
info(Snapshot) ->
    result(antientropy_nif:snapshot_info(Snapshot)).

%% @doc Returns the size of the rows in bytes, as {@link rows/2} returns them.
-spec bytes(snapshot()) -> {ok, Bytes :: non_neg_integer()} | antientropy:refused().
bytes(Snapshot) ->
    result(antientropy_nif:snapshot_bytes(Snapshot)).

%% @doc Returns the digest of the root: 32 bytes.
-spec root(snapshot()) -> {ok, Root :: binary()} | antientropy:refused().
root(Snapshot) ->
    result(antientropy_nif:root(Snapshot)).

%% @doc Returns the digest of a node of the tree: 32 bytes. The root is node 0 at depth 0; the leaves are at depth 2, or
%% at 3 in format 2. Refused: `bad_message' (the tree has no such node).
-spec digest(snapshot(), Depth :: non_neg_integer(), Index :: non_neg_integer()) ->
    {ok, Digest :: binary()} | antientropy:refused().
digest(Snapshot, Depth, Index) ->
    result(antientropy_nif:digest(Snapshot, Depth, Index)).

%% @doc Returns the message that offers a snapshot. The caller gives each of its offers a number.
-spec offer(snapshot(), Number :: non_neg_integer()) -> {ok, Offer :: binary()} | antientropy:refused().
offer(Snapshot, Number) ->
    result(antientropy_nif:offer(Snapshot, Number)).

%% @doc Returns the answer to a partner's ask for the offer of that number. Refused: `bad_message', `gone'.
-spec serve(snapshot(), Number :: non_neg_integer(), Ask :: iodata()) ->
    {ok, Answer :: binary()} | antientropy:refused().
serve(Snapshot, Number, Ask) ->
    result(antientropy_nif:serve(Snapshot, Number, Ask)).

%% @doc Returns the texts of the rows of a leaf. Refused: `bad_message' (the tree has no such leaf).
-spec rows(snapshot(), Leaf :: non_neg_integer()) -> {ok, Rows :: binary()} | antientropy:refused().
rows(Snapshot, Leaf) ->
    result(antientropy_nif:rows(Snapshot, Leaf)).

%% @doc Returns the text of the row of a key (docs/FORMATS.md), or no bytes if none is held. Refused: `bad_key'.
-spec row(snapshot(), Key :: binary()) -> {ok, Row :: binary()} | antientropy:refused().
row(Snapshot, Key) ->
    result(antientropy_nif:snapshot_row(Snapshot, Key)).

%% @doc Returns the least key of a leaf above a key, or the first one for `<<>>'. Refused: `bad_message' (the tree has
%% no such leaf), `bad_key' (the key has over 255 bytes), `no_version' (no key follows).
-spec key_after(snapshot(), Leaf :: non_neg_integer(), Key :: binary()) ->
    {ok, Next :: binary()} | antientropy:refused().
key_after(Snapshot, Leaf, Key) ->
    result(antientropy_nif:snapshot_key_after(Snapshot, Leaf, Key)).

%% @doc Returns all keys, leaf by leaf.
-spec keys(snapshot()) -> {ok, [binary()]} | antientropy:refused().
keys(Snapshot) ->
    antientropy_keys:all(fun key_after/3, Snapshot).

%% @doc Returns the keys of a leaf in ascending order. Refused: `bad_message' (the tree has no such leaf).
-spec keys(snapshot(), Leaf :: non_neg_integer()) -> {ok, [binary()]} | antientropy:refused().
keys(Snapshot, Leaf) ->
    antientropy_keys:of_leaf(fun key_after/3, Snapshot, Leaf).

%% @doc Folds over the keys, leaf by leaf.
-spec fold_keys(fun((Key :: binary(), Acc) -> Acc), Acc, snapshot()) -> {ok, Acc} | antientropy:refused().
fold_keys(Fun, Acc, Snapshot) ->
    antientropy_keys:fold(Fun, Acc, fun key_after/3, Snapshot).

%% @doc Writes a checkpoint of the rows (docs/FORMATS.md). The file is open for writing in mode `binary'.
-spec save(snapshot(), file:io_device()) -> ok | antientropy:refused() | antientropy_checkpoint:failed().
save(Snapshot, File) ->
    antientropy_checkpoint:write(Snapshot, File).
