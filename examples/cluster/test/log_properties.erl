%% @doc Properties of a log against a model, which is the list of all terms that were acknowledged (PropEr).
-module(log_properties).

-export([check/1]).

%% (Debian's PropEr has no header.)
-import(proper_types, [binary/0, boolean/0, float/2, frequency/1, list/1, nat/0, non_empty/1, oneof/1]).

-define(OWNER, {place, 1}).
-define(TESTS, 200).

%% @doc Returns true if all properties hold, in folders in this one.
-spec check(file:filename()) -> boolean().
check(Room) ->
    Options = [quiet, {numtests, ?TESTS}, {max_size, 20}, {to_file, standard_error}],
    lists:all(fun(Property) -> proper:quickcheck(Property, Options) end, [after_a_crash(Room), after_a_fault(Room)]).

%% A crash at any moment of a call leaves all acknowledged terms, in order, and besides them all or none of the call's
%% terms. The log continues after it.
after_a_crash(Room) ->
    Choices = {boolean(), float(0.0, 1.0), list(boolean()), binary(), boolean()},
    Last = oneof([write(plain()), begin_file, adopt, restart]),
    proper:forall({list(step(plain())), Last, Choices}, fun({Steps, Call, Chosen}) ->
        in_folders(Room, fun(Folder, Crashed) ->
            {Log, Acked} = run(Steps ++ [begin_file || Call =:= adopt], Folder),
            Before = files(Folder),
            {Done, All} = step(Call, {Log, Acked}),
            Image = crash(Call, Before, files(Folder), Chosen),
            ok = cluster_log:close(Done),
            write_files(Crashed, Image),
            ok = cluster_log:check(Crashed, ?OWNER),
            {Again, Read} = open(Crashed),
            {ok, More} = cluster_log:write(Again, [more]),
            ok = cluster_log:close(More),
            (Read =:= Acked orelse Read =:= All) andalso terms(Crashed) =:= Read ++ [more]
        end)
    end).

%% After a single fault of the disk all acknowledged terms are read, or damage is reported.
after_a_fault(Room) ->
    proper:forall({list(step(any_term())), nat(), fault()}, fun({Steps, Which, Fault}) ->
        in_folders(Room, fun(Folder, Faulty) ->
            {Log, Acked} = run(Steps, Folder),
            ok = cluster_log:close(Log),
            Files = files(Folder),
            Name = lists:nth(1 + Which rem map_size(Files), lists:sort(maps:keys(Files))),
            write_files(Faulty, changed(Fault, Name, Files)),
            case cluster_log:check(Faulty, ?OWNER) of
                {damaged, _} -> element(1, cluster_log:open(Faulty, ?OWNER, fun load/1, fun add/2)) =:= damaged;
                ok -> terms(Faulty) =:= Acked
            end
        end)
    end).

%% ---- steps

step(Term) -> frequency([{6, write(Term)}, {1, begin_file}, {2, checkpoint}, {2, restart}]).

write(Term) -> {write, non_empty(list(Term))}.

plain() -> oneof([nat(), binary()]).

%% A client's value can look like a record. Behind a torn one it looks like damage, which is the safe side.
any_term() ->
    Record = proper_types:bind(nat(), fun(Place) -> cluster_records:encode(Place, []) end, false),
    oneof([nat(), binary(), Record]).

run(Steps, Folder) ->
    ok = cluster_log:make(Folder, ?OWNER, note),
    lists:foldl(fun step/2, open(Folder), Steps).

step({write, Terms}, {Log, Acked}) ->
    {ok, Next} = cluster_log:write(Log, Terms),
    {Next, Acked ++ Terms};
step(begin_file, {Log, Acked}) ->
    {ok, Next} = cluster_log:begin_file(Log),
    {Next, Acked};
step(checkpoint, State) ->
    step(adopt, step(begin_file, State));
step(adopt, {Log, Acked}) ->
    {ok, Seal} = cluster_log:save(cluster_log:checkpoint(Log), fun(To) -> file:write(To, term_to_binary(Acked)) end),
    {ok, Next} = cluster_log:adopt(Log, Seal),
    {Next, Acked};
step(restart, {Log, Acked}) ->
    Folder = filename:dirname(cluster_log:checkpoint(Log)),
    ok = cluster_log:close(Log),
    {Again, Acked} = open(Folder),
    {Again, Acked}.

open(Folder) ->
    {ok, Log, Read} = cluster_log:open(Folder, ?OWNER, fun load/1, fun add/2),
    {Log, lists:reverse(Read)}.

load(none) ->
    [];
load(File) ->
    {ok, Bytes} = file:read_file(File),
    lists:reverse(binary_to_term(Bytes)).

add(Term, Terms) -> [Term | Terms].

terms(Folder) ->
    {Log, Read} = open(Folder),
    ok = cluster_log:close(Log),
    Read.

%% ---- crashes: the files before a call and after it, with any unsynced change between

crash({write, _}, Before, After, {IsWhole, Part, _, Junk, IsNoted}) ->
    [{Name, Written}] = [{Name, Bytes} || {"log." ++ _ = Name, Bytes} <- maps:to_list(After),
        Bytes =/= maps:get(Name, Before)],
    Begin = byte_size(maps:get(Name, Before)),
    Length = Begin + floor(Part * (byte_size(Written) - Begin)),
    case IsWhole of
        true when IsNoted -> After;
        true -> Before#{Name := Written};
        false -> Before#{Name := <<(binary:part(Written, 0, Length))/binary, Junk/binary>>}
    end;
crash(_, Before, After, {IsDone, _, Some, Junk, _}) ->
    Made = maps:without(maps:keys(Before), After),
    Removed = maps:without(maps:keys(After), Before),
    Unfinished = #{"manifest.new" => Junk, "checkpoint.1000.new" => Junk},
    case IsDone of
        true -> maps:merge(some(Removed, Some), After);
        false -> maps:merge(maps:merge(some(Made, Some), Before), some(Unfinished, Some))
    end.

some(Files, Some) ->
    Enough = Some ++ lists:duplicate(map_size(Files), true),
    maps:from_list([File || {File, true} <- lists:zip(maps:to_list(Files), lists:sublist(Enough, map_size(Files)))]).

%% ---- faults

fault() -> oneof([{flip, float(0.0, 0.999999)}, {cut, float(0.0, 0.999999)}, remove]).

changed(remove, Name, Files) ->
    maps:remove(Name, Files);
changed({cut, Part}, Name, Files) ->
    Bytes = maps:get(Name, Files),
    Files#{Name := binary:part(Bytes, 0, floor(Part * byte_size(Bytes)))};
changed({flip, Part}, Name, Files) ->
    Bytes = maps:get(Name, Files),
    Files#{Name := flipped(Bytes, floor(Part * bit_size(Bytes)))}.

flipped(<<>>, _) ->
    <<>>;
flipped(Bytes, At) ->
    <<Before:At/bits, Bit:1, After/bits>> = Bytes,
    <<Before/bits, (1 - Bit):1, After/bits>>.

%% ---- folders

in_folders(Room, Fun) ->
    Folders = [filename:join(Room, Name) || Name <- ["log", "copy"]],
    [_ = file:del_dir_r(Folder) || Folder <- Folders],
    %% (PropEr 1.2 can't report an exception with OTP 25.)
    try
        apply(Fun, Folders)
    catch
        Class:Reason:Stack ->
            io:format("~tp: ~0tp ~0tp~n", [Class, Reason, Stack]),
            false
    end.

files(Folder) ->
    {ok, Names} = file:list_dir(Folder),
    maps:from_list([{Name, element(2, file:read_file(filename:join(Folder, Name)))} || Name <- Names]).

write_files(Folder, Files) ->
    ok = filelib:ensure_path(Folder),
    maps:foreach(fun(Name, Bytes) -> ok = file:write_file(filename:join(Folder, Name), Bytes) end, Files).
