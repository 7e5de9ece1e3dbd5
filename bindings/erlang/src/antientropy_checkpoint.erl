%% @doc The frame of a checkpoint: a head, and then the rows of each leaf with their length (docs/FORMATS.md).
-module(antientropy_checkpoint).

-export([write/2, read/2]).

-export_type([failed/0, damage/0]).

-type failed() :: {error, {file, file:posix() | badarg | terminated} | {damaged, damage()}}.
%% A file that can't be read or written, or that is damaged.
-type damage() :: not_checkpoint | truncated | too_long | root | {leaf, Leaf :: non_neg_integer()}.
%% The file doesn't begin as a checkpoint does; it ends early, or a length in it is damaged; bytes follow its last
%% leaf; the rows have another root than the file has; or the rows of a leaf are refused.

-define(MAGIC, "antient", 1).
-define(HEAD_LEN, 44).
-define(LENGTH_LEN, 8).
%% A damaged length may be huge, so a file is read in pieces.
-define(PIECE, (1 bsl 20)).

%% @private
%% @doc Writes the checkpoint of a snapshot: programs call {@link antientropy_snapshot:save/2}.
-spec write(antientropy_snapshot:snapshot(), file:io_device()) -> ok | antientropy:refused() | failed().
write(Snapshot, File) ->
    case antientropy_snapshot:info(Snapshot) of
        {ok, #{format := Format, bits := Bits, range := Range, root := Root}} ->
            case put_bytes(File, <<?MAGIC, Format, Bits, Range:16, Root/binary>>) of
                ok -> write_leaves(Snapshot, File, 0, leaves(Format));
                Failed -> Failed
            end;
        Refused ->
            Refused
    end.

write_leaves(_, _, End, End) ->
    ok;
write_leaves(Snapshot, File, Leaf, End) ->
    case write_leaf(Snapshot, File, Leaf) of
        ok -> write_leaves(Snapshot, File, Leaf + 1, End);
        Failed -> Failed
    end.

write_leaf(Snapshot, File, Leaf) ->
    case antientropy_snapshot:rows(Snapshot, Leaf) of
        {ok, Rows} -> put_bytes(File, [<<(byte_size(Rows)):64>>, Rows]);
        Refused -> Refused
    end.

%% @private
%% @doc Makes a replica of a checkpoint: programs call {@link antientropy:load/2}.
-spec read(file:io_device(), Limit :: pos_integer()) ->
    {ok, antientropy:replica()} | antientropy:refused() | failed().
read(File, Limit) ->
    case get_bytes(File, ?HEAD_LEN) of
        {ok, <<?MAGIC, Format, Bits, Range:16, Root/binary>>} when Format =:= 1; Format =:= 2 ->
            case antientropy:new(#{format => Format, bits => Bits, range => Range, limit => Limit}) of
                {ok, Replica} -> fill(Replica, File, leaves(Format), Root);
                Refused -> Refused
            end;
        {ok, _} ->
            damaged(not_checkpoint);
        Failed ->
            Failed
    end.

%% Fills a new replica, and closes it if that fails.
fill(Replica, File, Leaves, Root) ->
    case read_leaves(Replica, File, 0, Leaves, Root) of
        ok ->
            {ok, Replica};
        Failed ->
            ok = antientropy:close(Replica),
            Failed
    end.

read_leaves(Replica, File, End, End, Root) ->
    case get_bytes(File, 1) of
        {error, {damaged, truncated}} -> check_root(Replica, Root);
        {ok, _} -> damaged(too_long);
        Failed -> Failed
    end;
read_leaves(Replica, File, Leaf, End, Root) ->
    case read_leaf(Replica, File, Leaf) of
        ok -> read_leaves(Replica, File, Leaf + 1, End, Root);
        Failed -> Failed
    end.

read_leaf(Replica, File, Leaf) ->
    case get_bytes(File, ?LENGTH_LEN) of
        {ok, <<0:64>>} ->
            ok;
        {ok, <<Length:64>>} ->
            case get_bytes(File, Length) of
                {ok, Rows} -> load_leaf(Replica, Leaf, Rows);
                Failed -> Failed
            end;
        Failed ->
            Failed
    end.

load_leaf(Replica, Leaf, Rows) ->
    case antientropy:load_rows(Replica, Rows) of
        {ok, _} -> ok;
        {error, {row_broken, _}} -> damaged({leaf, Leaf});
        {error, Name} when Name =:= other_range; Name =:= crowded -> damaged({leaf, Leaf});
        Refused -> Refused
    end.

check_root(Replica, Root) ->
    case antientropy:root(Replica) of
        {ok, Root} -> ok;
        {ok, _} -> damaged(root);
        Refused -> Refused
    end.

leaves(1) -> 256;
leaves(2) -> 4096.

damaged(Damage) -> {error, {damaged, Damage}}.

put_bytes(File, Bytes) ->
    case file:write(File, Bytes) of
        ok -> ok;
        {error, Reason} -> {error, {file, Reason}}
    end.

%% Reads `Length` bytes.
get_bytes(File, Length) ->
    get_pieces(File, Length, []).

get_pieces(_, 0, Pieces) ->
    {ok, iolist_to_binary(lists:reverse(Pieces))};
get_pieces(File, Length, Pieces) ->
    case file:read(File, min(Length, ?PIECE)) of
        {ok, Piece} -> get_pieces(File, Length - byte_size(Piece), [Piece | Pieces]);
        eof -> damaged(truncated);
        {error, Reason} -> {error, {file, Reason}}
    end.
