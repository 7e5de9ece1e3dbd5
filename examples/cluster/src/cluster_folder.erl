%% @doc The folder of a place: the life of its disk, and the files that are kept aside.
%%
%%     life       a file of a term ({@link cluster_disk}): the place, the incarnation, and the ranges that it holds
%%     lives      all lives that this place knows of ({@link cluster_lives})
%%     range-N    the log of each range ({@link cluster_log})
%%     hints      the log of the hints
%%     begun      a mark: a new life is unfinished, and its number was never used
%%     given-up   a mark with a reason: the life isn't used again
%%     aside-K    the files of a life that was given up, and a file `why'
%%     *.new      the file of an interrupted replace
%%
%% A new life has its logs, and then `life', before its number is used. A life continues if all of its files are whole.
%% Anything else is damage.
-module(cluster_folder).

-export([state/0, logs/1, range/1, hints/0, owner/2]).
-export([make/1, end_mark/0, give_up/1, move_aside/0, asides/0]).

-export_type([state/0]).

-type state() :: {whole, cluster_lives:incarnation()} | empty | {damaged, Why :: string()} | {refused, Why :: string()}.

%% ---- its state

%% @doc Returns the state of the folder, and changes nothing. `refused': its ranges differ from the settings'.
-spec state() -> state().
state() ->
    Names = [Name || Name <- contents(), Name =/= "lives"],
    IsIn = fun(Name) -> lists:member(Name, Names) end,
    case {cluster_lives:state(), IsIn("given-up"), IsIn("life"), IsIn("begun"), Names} of
        {_, true, _, _, _} -> {damaged, reason(path("given-up"))};
        {damaged, _, _, _, _} -> {damaged, "lives is damaged"};
        {_, _, false, true, _} -> empty;
        {_, _, false, _, []} -> empty;
        {_, _, false, _, _} -> {damaged, "life is missing"};
        {missing, _, true, _, _} -> {damaged, "lives is missing"};
        {whole, _, true, _, _} -> state_of_life(cluster_disk:read_term(path("life")))
    end.

state_of_life({ok, #{place := Place, incarnation := Incarnation, ranges := Ranges}}) ->
    Here = cluster_ring:here(),
    Held = cluster_ring:held(),
    {ok, Known} = cluster_lives:known(Here),
    if
        Place =/= Here -> {damaged, "it is the disk of place " ++ integer_to_list(Place)};
        Ranges =/= Held -> {refused, io_lib:format("the disk has the ranges ~w, and not ~w", [Ranges, Held])};
        Known > Incarnation -> {damaged, "a later life of this place has begun"};
        true -> state_of_logs(logs(Incarnation), Incarnation)
    end;
state_of_life(_) ->
    {damaged, "life is damaged"}.

state_of_logs([], Incarnation) ->
    {whole, Incarnation};
state_of_logs([{Folder, Owner, _} | Logs], Incarnation) ->
    case cluster_log:check(Folder, Owner) of
        ok -> state_of_logs(Logs, Incarnation);
        Damaged -> Damaged
    end.

%% @doc Returns the logs of a life: their folders, their owners, and the notes with which they begin.
-spec logs(cluster_lives:incarnation()) -> [{file:filename(), cluster_manifest:owner(), Note :: term()}].
logs(Incarnation) ->
    Life = cluster_lives:number(cluster_ring:here(), Incarnation),
    Ranges = [{range(Range), owner(Life, {range, Range}), joining} || Range <- cluster_ring:held()],
    [{hints(), owner(Life, hints), none} | Ranges].

%% @doc Returns the owner in the manifest of a log.
-spec owner(cluster_lives:life(), hints | {range, cluster_ring:range()}) -> cluster_manifest:owner().
owner(Life, Log) ->
    #{life => Life, log => Log, ring => cluster_ring:replica_options(0)}.

%% @doc Returns the folder of a range.
-spec range(cluster_ring:range()) -> file:filename().
range(Range) ->
    path("range-" ++ integer_to_list(Range)).

%% @doc Returns the folder of the hints.
-spec hints() -> file:filename().
hints() ->
    path("hints").

%% ---- a new life

%% @doc Makes the disk of a new life, in an empty folder.
-spec make(cluster_lives:incarnation()) -> ok | full.
make(Incarnation) ->
    Life = #{place => cluster_ring:here(), incarnation => Incarnation, ranges => cluster_ring:held()},
    Logs = [fun() -> cluster_log:make(Folder, Owner, Note) end || {Folder, Owner, Note} <- logs(Incarnation)],
    Begin = fun() -> cluster_disk:replace(path("begun"), fun(_) -> ok end) end,
    All = [fun clean/0, Begin] ++ Logs ++ [fun() -> cluster_disk:write_term(path("life"), Life) end, fun end_mark/0],
    lists:foldl(fun step/2, ok, All).

step(Step, ok) -> Step();
step(_, full) -> full.

%% Removes the files of a new life that was interrupted, the mark last.
clean() ->
    Left = [Name || Name <- contents(), Name =/= "lives"],
    [ok = cluster_disk:remove(path(Name)) || Name <- Left, Name =/= "begun"],
    sync().

%% @doc Removes the mark of a new life, before its number is used: `life' is on the disk.
-spec end_mark() -> ok.
end_mark() ->
    ok = cluster_disk:remove(path("begun")),
    sync().

%% ---- damage

%% @doc Marks the life as given up. The mark is on the disk on return, even if the disk is full.
-spec give_up(Why :: string()) -> ok.
give_up(Why) ->
    Mark = path("given-up"),
    IsMarked = filelib:is_file(Mark) orelse cluster_disk:replace(Mark, fun(To) -> file:write(To, Why) end) =:= ok,
    case IsMarked orelse not filelib:is_file(path("life")) of
        true -> ok;
        false -> ok = cluster_disk:rename(path("life"), Mark)
    end.

%% @doc Moves the files of a life that was given up into a folder, and returns its name. The mark is moved last, so that
%% an interrupted move continues.
-spec move_aside() -> {ok, Aside :: string()} | full.
move_aside() ->
    Aside = next_aside(),
    Why = reason(path("given-up")),
    Steps = [
        fun() -> cluster_disk:make_folder(path(Aside)) end,
        fun() -> cluster_disk:replace(path(filename:join(Aside, "why")), fun(To) -> file:write(To, [Why, $\n]) end) end
    ],
    IsMoved = fun(Name) -> Name =/= "given-up" andalso (Name =/= "lives" orelse cluster_lives:state() =:= damaged) end,
    Move = fun(Name) -> cluster_disk:rename(path(Name), path(filename:join(Aside, Name))) end,
    Moves = [fun() -> Move(Name) end || Name <- lists:filter(IsMoved, contents()) ++ ["given-up"]],
    case lists:foldl(fun step/2, ok, Steps ++ Moves) of
        ok -> {ok, Aside};
        full -> full
    end.

%% Returns the next folder: the last one, if its mark is missing.
next_aside() ->
    Numbers = [list_to_integer(Number) || "aside-" ++ Number <- cluster_disk:names(cluster_settings:folder())],
    Last = lists:max([0 | Numbers]),
    case Last =:= 0 orelse filelib:is_file(path(filename:join(aside(Last), "given-up"))) of
        true -> aside(Last + 1);
        false -> aside(Last)
    end.

aside(Number) ->
    "aside-" ++ integer_to_list(Number).

%% @doc Returns the folders that are kept aside, each with its reason.
-spec asides() -> [{Name :: string(), Why :: string()}].
asides() ->
    [
        {Name, reason(path(filename:join(Name, "why")))}
     || "aside-" ++ _ = Name <- cluster_disk:names(cluster_settings:folder())
    ].

%% Returns the text of a file. A mark may be a renamed file of the life, if the disk was full.
reason(File) ->
    case file:read_file(File) of
        {ok, Text} when byte_size(Text) > 0 -> printable(string:trim(Text));
        _ -> "unknown"
    end.

printable(Text) ->
    case io_lib:printable_unicode_list(unicode:characters_to_list(Text)) of
        true -> unicode:characters_to_list(Text);
        false -> "it was given up when the disk was full"
    end.

%% ---- files

%% Returns the names in the folder, except for the files kept aside and the file of an interrupted replace.
contents() ->
    [
        Name
     || Name <- cluster_disk:names(cluster_settings:folder()),
        not lists:prefix("aside-", Name),
        filename:extension(Name) =/= ".new"
    ].

sync() ->
    cluster_disk:sync_folder(cluster_settings:folder()).

path(Name) ->
    filename:join(cluster_settings:folder(), Name).
