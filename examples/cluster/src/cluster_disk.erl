%% @doc Files that are on the disk, whole or not at all, and the handling of a full or failing disk.
%%
%% A full disk is a result, `full', and nothing has changed. Every other failure ends the node, since data that it
%% couldn't write must not be acknowledged.
%%
%% A file of a term is `"cluster", 1', the checksum of the bytes (crc32, 4 bytes, big-endian), and the bytes, from
%% `term_to_binary'.
-module(cluster_disk).

-export([make_folder/1, replace/2, write_term/2, read_term/1, remove/1, rename/2, names/1]).
-export([sync/2, sync_folder/1, done/2, full_or_done/2, failed/2]).

-define(MAGIC, "cluster", 1).

%% @doc Makes a folder, unless it exists, and brings it to the disk.
-spec make_folder(file:filename()) -> ok | full.
make_folder(Folder) ->
    case full_or_done(Folder, filelib:ensure_path(Folder)) of
        ok -> sync_folder(filename:dirname(Folder));
        full -> full
    end.

%% @doc Replaces a file with a new one, which `Write' fills. After a crash either the old file or the whole new one is
%% there.
-spec replace(file:filename(), Write :: fun((file:io_device()) -> ok | {error, term()})) -> ok | full.
replace(File, Write) ->
    New = File ++ ".new",
    case full_or_done(New, write_new(New, Write)) of
        ok ->
            rename(New, File);
        full ->
            _ = file:delete(New),
            full
    end.

write_new(New, Write) ->
    case file:open(New, [raw, write, binary, {delayed_write, 1 bsl 16, 100}]) of
        {ok, Device} -> first_error([Write(Device), synced(Device), file:close(Device)]);
        Failed -> Failed
    end.

first_error(Results) ->
    case [Failed || {error, _} = Failed <- Results] of
        [] -> ok;
        [Failed | _] -> Failed
    end.

%% @doc Replaces a file with one that has a term.
-spec write_term(file:filename(), term()) -> ok | full.
write_term(File, Term) ->
    Bytes = term_to_binary(Term),
    replace(File, fun(Device) -> file:write(Device, [?MAGIC, <<(erlang:crc32(Bytes)):32>>, Bytes]) end).

%% @doc Reads the term of a file.
-spec read_term(file:filename()) -> {ok, term()} | missing | damaged.
read_term(File) ->
    case file:read_file(File) of
        {ok, <<?MAGIC, Sum:32, Bytes/binary>>} ->
            case erlang:crc32(Bytes) of
                Sum -> {ok, binary_to_term(Bytes)};
                _ -> damaged
            end;
        {error, enoent} ->
            missing;
        _ ->
            damaged
    end.

%% @doc Removes a file or a folder with its contents, if it exists. Doesn't sync the parent folder.
-spec remove(file:filename()) -> ok.
remove(File) ->
    case file:del_dir_r(File) of
        {error, enoent} -> ok;
        Result -> done(File, Result)
    end.

%% @doc Renames a file or a folder within its folder, or into an adjacent one, and brings both names to the disk.
-spec rename(file:filename(), file:filename()) -> ok | full.
rename(From, To) ->
    case full_or_done(To, file:rename(From, To)) of
        ok ->
            [sync_folder(Folder) || Folder <- lists:usort([filename:dirname(From), filename:dirname(To)])],
            ok;
        full ->
            full
    end.

%% @doc Returns the names in a folder.
-spec names(file:filename()) -> [file:filename()].
names(Folder) ->
    case file:list_dir(Folder) of
        {ok, Names} -> lists:sort(Names);
        {error, Reason} -> failed(Folder, Reason)
    end.

%% @doc Brings an open file to the disk.
-spec sync(file:filename(), file:io_device()) -> ok.
sync(File, Device) ->
    done(File, synced(Device)).

synced(Device) ->
    Begun = erlang:monotonic_time(microsecond),
    Synced = file:sync(Device),
    ok = cluster_metrics:observe(fsync, [], erlang:monotonic_time(microsecond) - Begun),
    Synced.

%% @doc Brings the names in a folder to the disk.
-spec sync_folder(file:filename()) -> ok.
sync_folder(Folder) ->
    case file:open(Folder, [raw, read, directory]) of
        {ok, Device} ->
            sync(Folder, Device),
            done(Folder, file:close(Device));
        {error, Reason} ->
            failed(Folder, Reason)
    end.

%% @doc Ends the node unless a call has succeeded.
-spec done(file:filename(), ok | {error, Reason :: term()}) -> ok.
done(_, ok) -> ok;
done(File, {error, Reason}) -> failed(File, Reason).

%% @doc Ends the node unless a call has succeeded, or the disk is full.
-spec full_or_done(file:filename(), ok | {error, Reason :: term()}) -> ok | full.
full_or_done(_, {error, Reason}) when Reason =:= enospc; Reason =:= edquot -> full;
full_or_done(File, Result) -> done(File, Result).

%% @doc Ends the node at once: data that it couldn't write must not be acknowledged, nor read again from the cache.
-spec failed(file:filename(), Reason :: term()) -> no_return().
failed(File, Reason) ->
    io:format(standard_error, "the disk failed: ~ts: ~0tp~n", [File, Reason]),
    erlang:halt(1, [{flush, false}]).
