%% @doc The checkpoint of a range: its rows at one moment, in a file (docs/FORMATS.md).
-module(cluster_checkpoint).

-export([save/2, load/3]).

%% @doc Writes a snapshot into a file, and returns its seal.
-spec save(file:filename(), antientropy_snapshot:snapshot()) -> {ok, cluster_manifest:seal()} | full.
save(File, Snapshot) ->
    cluster_log:save(File, fun(Device) ->
        case antientropy_snapshot:save(Snapshot, Device) of
            ok -> ok;
            {error, {file, Reason}} -> {error, Reason}
        end
    end).

%% @doc Makes the replica of a range, with the rows of a checkpoint, or of none. Throws `{damaged, Why}'. Refused:
%% `journal_full'.
-spec load(file:filename() | none, cluster_ring:range(), Limit :: pos_integer()) ->
    {ok, antientropy:replica()} | {error, journal_full}.
load(none, Range, Limit) ->
    antientropy:new((cluster_ring:replica_options(Range))#{limit => Limit});
load(File, Range, Limit) ->
    {ok, Device} = file:open(File, [raw, read, binary, read_ahead]),
    Loaded = antientropy:load(Device, Limit),
    ok = file:close(Device),
    case Loaded of
        {ok, Replica} -> checked(File, Range, Replica);
        {error, journal_full} -> {error, journal_full};
        {error, _} -> damaged(File)
    end.

checked(File, Range, Replica) ->
    #{format := Format, bits := Bits} = cluster_ring:replica_options(Range),
    case antientropy:info(Replica) of
        {ok, #{format := Format, bits := Bits, range := Range}} -> {ok, Replica};
        _ -> damaged(File)
    end.

-spec damaged(file:filename()) -> no_return().
damaged(File) ->
    cluster_manifest:damaged(filename:basename(File) ++ " is damaged").
