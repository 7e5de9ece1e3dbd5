%% @doc A log in a folder, with a checkpoint. A start shows whether the log has everything that was logged.
%%
%%     manifest      the owner of the log, and the files that must be there: a file of a term ({@link cluster_disk})
%%     synced        a place, at most the one up to which the log is synced: 8 bytes, and their crc32
%%     log.N         records ({@link cluster_records}), with N from `first' to `last' of the manifest
%%     checkpoint.N  everything that was logged before log.N began, with N = `first'
%%
%% The manifest is a map: the owner, the numbers `first' and `last', the place of the first record of the first file,
%% the size and the MD5 of the checkpoint, or `none', and a note for the owner's use. It is replaced in one step.
%%
%% A group of terms is one record. It is synced, then its place is noted in `synced', by a write in place, and then the
%% group may be acknowledged. `synced' itself is synced only when a log file begins, so it may be behind after a crash
%% of the machine, but is never ahead. A crash leaves at most one record that isn't whole: a *torn tail*, in the last
%% file, not below the synced place, with no whole record of a later place behind it. A start cuts it off, and appends
%% to the last file, which needs no space. A crash also leaves files before the first one, an empty log file after the
%% last one, and checkpoints that no manifest names. Every other difference is damage.
-module(cluster_log).

-export([make/3, check/2, open/4, write/2, close/1, note/1, set_note/2]).
-export([begin_file/1, checkpoint/1, saved/1, save/2, adopt/2]).

-export_type([log/0]).

-include_lib("kernel/include/file.hrl").

-import(cluster_manifest, [damaged/1, damaged/2, path/2, log_file/2]).

%% Maximum number of terms in a record. A larger group takes several records, and is acknowledged after the last one.
-define(MOST_TERMS, 1000).

-record(log, {
    folder :: file:filename(),
    manifest :: cluster_manifest:manifest(),
    %% The last file, its length, the place of the next record, and the place of the file's first record.
    file :: file:io_device(),
    length :: non_neg_integer(),
    place :: cluster_records:place(),
    begun :: cluster_records:place(),
    synced :: file:io_device()
}).

-opaque log() :: #log{}.

%% ---- a new log

%% @doc Makes an empty log in a folder without one. The manifest is written last.
-spec make(file:filename(), cluster_manifest:owner(), Note :: term()) -> ok | full.
make(Folder, Owner, Note) ->
    Zero = cluster_manifest:place_bytes(0),
    Steps = [
        fun() -> cluster_disk:make_folder(Folder) end,
        fun() -> cluster_disk:replace(path(Folder, "synced"), fun(Device) -> file:write(Device, Zero) end) end,
        fun() -> cluster_disk:replace(log_file(Folder, 1), fun(_) -> ok end) end,
        fun() -> cluster_manifest:write(Folder, cluster_manifest:new(Owner, Note)) end
    ],
    lists:foldl(fun step/2, ok, Steps).

step(Step, ok) -> Step();
step(_, full) -> full.

%% ---- the start

%% @doc Reads all bytes of a log, and changes nothing.
-spec check(file:filename(), cluster_manifest:owner()) -> ok | {damaged, Why :: string()}.
check(Folder, Owner) ->
    case read(Folder, Owner, fun(_) -> none end, fun(_, none) -> none end) of
        {ok, _} -> ok;
        Damaged -> Damaged
    end.

%% @doc Opens a log: loads its checkpoint, folds over the terms after it, and brings all that it read to the disk.
%% `Load' gets the checkpoint's file, or `none'. Both functions may throw `{damaged, Why}'.
-spec open(file:filename(), cluster_manifest:owner(), Load, Fun) ->
    {ok, log(), Acc} | {damaged, Why :: string()} when
    Load :: fun((file:filename() | none) -> Acc), Fun :: fun((Term :: term(), Acc) -> Acc).
open(Folder, Owner, Load, Fun) ->
    FunOfRecord = fun(Bytes, Acc) -> lists:foldl(Fun, Acc, cluster_records:terms(Bytes)) end,
    case read(Folder, Owner, Load, FunOfRecord) of
        {ok, {Manifest, Synced, Begun, {End, Place, Acc}}} ->
            ok = cluster_manifest:remove_leftovers(Folder, Manifest),
            Log = #log{
                folder = Folder,
                manifest = Manifest,
                file = open_last(log_file(Folder, maps:get(last, Manifest)), End),
                length = End,
                place = Place,
                begun = Begun,
                synced = open_file(path(Folder, "synced"))
            },
            ok = note_if_behind(Log, Synced),
            {ok, Log, Acc};
        Damaged ->
            Damaged
    end.

%% Cuts off a torn tail, and syncs the file: after a crash of just the process, it can have bytes that aren't on the
%% disk.
open_last(File, End) ->
    Device = open_file(File),
    ok = cut(File, Device, End),
    Device.

cut(File, Device, End) ->
    {ok, End} = file:position(Device, End),
    ok = cluster_disk:done(File, file:truncate(Device)),
    cluster_disk:sync(File, Device).

open_file(File) ->
    case file:open(File, [raw, read, write, binary]) of
        {ok, Device} -> Device;
        {error, Reason} -> cluster_disk:failed(File, Reason)
    end.

note_if_behind(#log{place = Synced}, Synced) ->
    ok;
note_if_behind(#log{folder = Folder} = Log, _) ->
    case note_synced(Log) of
        ok -> ok;
        full -> cluster_disk:failed(path(Folder, "synced"), enospc)
    end.

%% Reads a manifest, and all files that it names.
read(Folder, Owner, Load, Fun) ->
    try
        {ok, read_all(Folder, cluster_manifest:read(Folder, Owner), Load, Fun)}
    catch
        throw:{damaged, Why} -> {damaged, filename:basename(Folder) ++ ": " ++ Why}
    end.

read_all(Folder, #{first := First, last := Last, first_place := Place} = Manifest, Load, Fun) ->
    Synced = cluster_manifest:read_synced(Folder),
    ok = cluster_manifest:check_later(Folder, Manifest),
    Loaded = Load(cluster_manifest:read_checkpoint(Folder, Manifest)),
    {Begun, {_, Next, _} = Read} = read_files(Folder, First, Last, {0, Place, Loaded}, Fun),
    Next >= Synced orelse damaged("the end of the log is damaged or missing"),
    {Manifest, Synced, Begun, Read}.

%% Returns the place at which the last file begins, and the place at which the reading ended.
read_files(Folder, Last, Last, {_, Begun, _} = Before, Fun) ->
    {Begun, read_file(Folder, Last, [none, torn], Before, Fun)};
read_files(Folder, Number, Last, Before, Fun) ->
    read_files(Folder, Number + 1, Last, read_file(Folder, Number, [none], Before, Fun), Fun).

read_file(Folder, Number, Tails, {_, Place, Acc}, Fun) ->
    File = log_file(Folder, Number),
    case file:read_file(File) of
        {ok, Bytes} ->
            {End, Next, Tail, Read} = cluster_records:fold(Bytes, Place, Fun, Acc),
            lists:member(Tail, Tails) orelse damaged(filename:basename(File) ++ " is damaged"),
            {End, Next, Read};
        {error, Reason} ->
            damaged(filename:basename(File), Reason)
    end.

%% ---- records

%% @doc Logs a group of terms, and returns once they are on the disk. If the disk is full, none of them is.
-spec write(log(), [term()]) -> {ok | full, log()}.
write(#log{length = Length, file = Device} = Log, Terms) ->
    Written = write_all(Log, Terms),
    case Written =/= full andalso note_synced(Written) =:= ok of
        true ->
            {ok, Written};
        false ->
            ok = cut(last_file(Log), Device, Length),
            {full, Log}
    end.

write_all(Log, []) ->
    Log;
write_all(#log{file = Device, length = Length, place = Place} = Log, Terms) ->
    {Some, More} = lists:split(min(?MOST_TERMS, length(Terms)), Terms),
    Record = cluster_records:encode(Place, Some),
    case cluster_disk:full_or_done(last_file(Log), file:pwrite(Device, Length, Record)) of
        ok ->
            ok = cluster_disk:sync(last_file(Log), Device),
            write_all(Log#log{length = Length + byte_size(Record), place = Place + 1}, More);
        full ->
            full
    end.

%% Notes the synced place. A full disk usually has space for it, since the bytes exist.
note_synced(#log{folder = Folder, synced = Device, place = Place}) ->
    Result = file:pwrite(Device, 0, cluster_manifest:place_bytes(Place)),
    cluster_disk:full_or_done(path(Folder, "synced"), Result).

%% @doc Closes the log.
-spec close(log()) -> ok.
close(#log{folder = Folder, file = Device, synced = Synced} = Log) ->
    ok = cluster_disk:done(last_file(Log), file:close(Device)),
    cluster_disk:done(path(Folder, "synced"), file:close(Synced)).

%% @doc Returns the note in the manifest.
-spec note(log()) -> term().
note(#log{manifest = #{note := Note}}) ->
    Note.

%% @doc Changes the note in the manifest.
-spec set_note(log(), term()) -> {ok | full, log()}.
set_note(#log{manifest = Manifest} = Log, Note) ->
    with_manifest(Log, Manifest#{note := Note}).

%% ---- checkpoints

%% @doc Begins a new log file. Its checkpoint has everything that was logged before it.
-spec begin_file(log()) -> {ok | full, log()}.
begin_file(#log{folder = Folder, manifest = #{last := Last} = Manifest, synced = Synced} = Log) ->
    File = log_file(Folder, Last + 1),
    case cluster_disk:replace(File, fun(_) -> ok end) of
        ok ->
            ok = cluster_disk:sync(path(Folder, "synced"), Synced),
            begin_file(File, with_manifest(Log, Manifest#{last := Last + 1}));
        full ->
            {full, Log}
    end.

begin_file(File, {ok, #log{file = Before, place = Place} = Log}) ->
    ok = cluster_disk:done(File, file:close(Before)),
    {ok, Log#log{file = open_file(File), length = 0, begun = Place}};
begin_file(File, {full, Log}) ->
    ok = cluster_disk:remove(File),
    {full, Log}.

%% @doc Returns the name of the checkpoint that goes with the last log file.
-spec checkpoint(log()) -> file:filename().
checkpoint(#log{folder = Folder, manifest = #{last := Last}}) ->
    cluster_manifest:checkpoint_file(Folder, Last).

%% @doc Returns the time at which the log's checkpoint was saved, in seconds of the system's time.
-spec saved(log()) -> integer() | none.
saved(#log{manifest = #{checkpoint := none}}) ->
    none;
saved(#log{folder = Folder, manifest = #{first := First}}) ->
    case file:read_file_info(cluster_manifest:checkpoint_file(Folder, First), [raw, {time, posix}]) of
        {ok, #file_info{mtime = Seconds}} -> Seconds;
        {error, _} -> none
    end.

%% @doc Writes a checkpoint, in any process. Its seal is for {@link adopt/2}.
-spec save(file:filename(), Write :: fun((file:io_device()) -> ok | {error, term()})) ->
    {ok, cluster_manifest:seal()} | full.
save(File, Write) ->
    case cluster_disk:replace(File, Write) of
        ok ->
            case cluster_manifest:seal(File) of
                {ok, Seal} -> {ok, Seal};
                {error, Reason} -> cluster_disk:failed(File, Reason)
            end;
        full ->
            full
    end.

%% @doc Makes the log begin with the checkpoint of the last log file, and removes the older files.
-spec adopt(log(), cluster_manifest:seal()) -> {ok | full, log()}.
adopt(#log{folder = Folder, manifest = #{last := Last} = Manifest, begun = Begun} = Log, Seal) ->
    case with_manifest(Log, Manifest#{first := Last, first_place := Begun, checkpoint := Seal}) of
        {ok, #log{manifest = Next} = Adopted} ->
            ok = cluster_manifest:remove_leftovers(Folder, Next),
            {ok, Adopted};
        Full ->
            Full
    end.

with_manifest(#log{folder = Folder} = Log, Manifest) ->
    case cluster_manifest:write(Folder, Manifest) of
        ok -> {ok, Log#log{manifest = Manifest}};
        full -> {full, Log}
    end.

last_file(#log{folder = Folder, manifest = #{last := Last}}) ->
    log_file(Folder, Last).
