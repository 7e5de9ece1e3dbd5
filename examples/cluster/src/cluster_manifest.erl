%% @doc The manifest of a log: its owner, and the files that must be there ({@link cluster_log}).
-module(cluster_manifest).

-export([new/2, read/2, write/2, read_synced/1, place_bytes/1, check_later/2, read_checkpoint/2, remove_leftovers/2]).
-export([seal/1, damaged/1, damaged/2, path/2, log_file/2, checkpoint_file/2]).

-export_type([manifest/0, owner/0, seal/0]).

-type owner() :: term().
-type seal() :: {Size :: non_neg_integer(), Md5 :: binary()}.
-type manifest() :: #{
    owner := owner(),
    first := pos_integer(),
    last := pos_integer(),
    first_place := cluster_records:place(),
    checkpoint := seal() | none,
    note := term()
}.

%% @doc Returns the manifest of a new log.
-spec new(owner(), Note :: term()) -> manifest().
new(Owner, Note) ->
    #{owner => Owner, first => 1, last => 1, first_place => 0, checkpoint => none, note => Note}.

%% @doc Reads the manifest of a folder. Throws `{damaged, Why}' if it isn't the owner's, like the functions below.
-spec read(file:filename(), owner()) -> manifest().
read(Folder, Owner) ->
    case cluster_disk:read_term(path(Folder, "manifest")) of
        {ok, #{owner := Owner} = Manifest} -> Manifest;
        {ok, _} -> damaged("it is another log's");
        missing -> damaged("manifest is missing");
        damaged -> damaged("manifest is damaged")
    end.

%% @doc Replaces the manifest of a folder.
-spec write(file:filename(), manifest()) -> ok | full.
write(Folder, Manifest) ->
    cluster_disk:write_term(path(Folder, "manifest"), Manifest).

%% @doc Reads the synced place.
-spec read_synced(file:filename()) -> cluster_records:place().
read_synced(Folder) ->
    case file:read_file(path(Folder, "synced")) of
        {ok, <<Place:64, _:32>> = Bytes} ->
            Bytes =:= place_bytes(Place) orelse damaged("synced is damaged"),
            Place;
        {ok, _} ->
            damaged("synced is damaged");
        {error, Reason} ->
            damaged("synced", Reason)
    end.

%% @doc Returns the bytes of a synced place.
-spec place_bytes(cluster_records:place()) -> binary().
place_bytes(Place) ->
    <<Place:64, (erlang:crc32(<<Place:64>>)):32>>.

%% @doc Checks that no file shows that a later manifest was written.
-spec check_later(file:filename(), manifest()) -> ok.
check_later(Folder, #{last := Last}) ->
    Later = [Name || {Kind, Number, Name} <- numbered(Folder), Number > Last, is_evidence(Folder, Kind, Name)],
    case Later of
        [] -> ok;
        [Name | _] -> damaged(Name ++ " is later than the manifest")
    end.

is_evidence(_, "checkpoint", _) -> true;
is_evidence(Folder, "log", Name) -> filelib:file_size(path(Folder, Name)) > 0.

%% @doc Checks the bytes of the checkpoint, and returns the name of its file, or `none' if there isn't one.
-spec read_checkpoint(file:filename(), manifest()) -> file:filename() | none.
read_checkpoint(_, #{checkpoint := none}) ->
    none;
read_checkpoint(Folder, #{first := First, checkpoint := Seal}) ->
    File = checkpoint_file(Folder, First),
    case seal(File) of
        {ok, Seal} -> File;
        {ok, _} -> damaged(filename:basename(File) ++ " is damaged");
        {error, Reason} -> damaged(filename:basename(File), Reason)
    end.

%% @doc Removes the leftovers of a crash, which the manifest doesn't name.
-spec remove_leftovers(file:filename(), manifest()) -> ok.
remove_leftovers(Folder, #{first := First, last := Last, checkpoint := Seal}) ->
    Kept = [{"checkpoint", First} || Seal =/= none] ++ [{"log", Number} || Number <- lists:seq(First, Last)],
    Others = [Name || {Kind, Number, Name} <- numbered(Folder), not lists:member({Kind, Number}, Kept)],
    New = [Name || Name <- cluster_disk:names(Folder), filename:extension(Name) =:= ".new"],
    lists:foreach(fun(Name) -> cluster_disk:remove(path(Folder, Name)) end, Others ++ New).

%% @doc Returns the size and the MD5 of a file.
-spec seal(file:filename()) -> {ok, seal()} | {error, Reason :: term()}.
seal(File) ->
    case file:open(File, [raw, read, binary]) of
        {ok, Device} ->
            Sealed = seal(Device, 0, erlang:md5_init()),
            ok = file:close(Device),
            Sealed;
        Failed ->
            Failed
    end.

seal(Device, Size, Md5) ->
    case file:read(Device, 1 bsl 20) of
        {ok, Bytes} -> seal(Device, Size + byte_size(Bytes), erlang:md5_update(Md5, Bytes));
        eof -> {ok, {Size, erlang:md5_final(Md5)}};
        Failed -> Failed
    end.

%% @doc Throws that a file is missing, or can't be read.
-spec damaged(Name :: string(), Reason :: atom()) -> no_return().
damaged(Name, enoent) -> damaged(Name ++ " is missing");
damaged(Name, Reason) -> damaged(Name ++ " can't be read: " ++ atom_to_list(Reason)).

%% @doc Throws a description of the damage.
-spec damaged(Why :: string()) -> no_return().
damaged(Why) -> throw({damaged, Why}).

%% Returns the log files and the checkpoints of a folder, with their numbers.
numbered(Folder) ->
    [{Kind, Number, Name} || Name <- cluster_disk:names(Folder), {Kind, Number} <- kind(Name)].

kind(Name) ->
    case string:split(Name, ".") of
        [Kind, Digits] when Kind =:= "log"; Kind =:= "checkpoint" ->
            case string:to_integer(Digits) of
                {Number, []} -> [{Kind, Number}];
                _ -> []
            end;
        _ ->
            []
    end.

%% @doc Returns the name of a log file.
-spec log_file(file:filename(), pos_integer()) -> file:filename().
log_file(Folder, Number) -> path(Folder, "log." ++ integer_to_list(Number)).

%% @doc Returns the name of a checkpoint.
-spec checkpoint_file(file:filename(), pos_integer()) -> file:filename().
checkpoint_file(Folder, Number) -> path(Folder, "checkpoint." ++ integer_to_list(Number)).

%% @doc Returns the name of a file in a folder.
-spec path(file:filename(), string()) -> file:filename().
path(Folder, Name) -> filename:join(Folder, Name).
