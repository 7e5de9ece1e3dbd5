%% @doc The replica of a range: its start from the disk, puts, reads, and the test for lost versions.
-module(cluster_replica).

-export([open/2, entries/1, used/1, sizes/1, root/1]).
-export([put/5, own/3, read/3, read_apart/4, forgotten/3]).

%% Maximum number of scans of the journal for single entries. A pass for many entries costs more than a scan, but the
%% same for any number of them.
-define(MOST_SCANS, 32).
%% The greatest limit, enough for everything that a disk may have.
-define(NO_LIMIT, 1000000).

%% ---- the start

%% @doc Opens the log of a range, and makes its replica. Also returns the number of terms after the checkpoint. The node
%% ends if the limit in the settings is smaller than the number of held versions.
-spec open(cluster_ring:range(), cluster_lives:life()) ->
    {ok, cluster_log:log(), antientropy:replica(), Terms :: non_neg_integer()} | {damaged, Why :: string()}.
open(Range, Life) ->
    Limit = cluster_settings:limit(),
    try
        open(Range, Life, Limit)
    catch
        throw:journal_full -> refuse(Range, Life, Limit)
    end.

open(Range, Life, Limit) ->
    Load = fun(File) -> {allowed(cluster_checkpoint:load(File, Range, Limit)), 0} end,
    Add = fun(Term, {Replica, Terms}) -> {accept_again(Term, Replica, Limit), Terms + 1} end,
    case cluster_log:open(cluster_folder:range(Range), cluster_folder:owner(Life, {range, Range}), Load, Add) of
        {ok, Log, {Replica, Terms}} -> {ok, Log, Replica, Terms};
        Damaged -> Damaged
    end.

allowed({ok, Replica}) -> Replica;
allowed({error, journal_full}) -> throw(journal_full).

%% Accepts a term of the log. After renewals, a log has more terms than a journal may have entries.
accept_again({Key, Clock, Value}, Replica, Limit) ->
    Accept = fun(Into) -> antientropy:accept(Into, Key, #{clock => Clock, value => Value}) end,
    case Accept(Replica) of
        {ok, _} ->
            Replica;
        {error, journal_full} ->
            Renewed = renewed(Replica, Limit),
            {ok, _} = allowed_to(Accept(Renewed)),
            Renewed;
        {error, _} ->
            cluster_manifest:damaged("a record is refused")
    end.

allowed_to({error, journal_full}) -> throw(journal_full);
allowed_to(Accepted) -> Accepted.

-spec refuse(cluster_ring:range(), cluster_lives:life(), pos_integer()) -> no_return().
refuse(Range, Life, Limit) ->
    {ok, _, Replica, _} = open(Range, Life, ?NO_LIMIT),
    Held = used(renewed(Replica, ?NO_LIMIT)),
    cluster_app:refuse(io_lib:format("the limit ~b is smaller than the ~b versions of range ~b", [Limit, Held, Range])).

renewed(Replica, Limit) ->
    {ok, Renewed} = antientropy:renew(Replica, Limit),
    ok = antientropy:close(Replica),
    Renewed.

%% @doc Returns the number of the next entry, which continues over renewals.
-spec entries(antientropy:replica()) -> non_neg_integer().
entries(Replica) ->
    {ok, #{entries := Entries}} = antientropy:about(Replica),
    Entries.

%% @doc Returns the number of entries of the journal, which is full at the limit.
-spec used(antientropy:replica()) -> non_neg_integer().
used(Replica) ->
    {ok, #{entries := Entries, first := First}} = antientropy:count(Replica),
    Entries - First.

%% @doc Returns the counts of a replica.
-spec sizes(antientropy:replica()) -> #{
    entries := non_neg_integer(),
    limit := pos_integer(),
    dirty := non_neg_integer(),
    sessions := non_neg_integer(),
    bytes := #{rows := non_neg_integer(), journal := non_neg_integer(), sessions := non_neg_integer()}
}.
sizes(Replica) ->
    {ok, #{entries := Entries, first := First} = Counts} = antientropy:count(Replica),
    {ok, Bytes} = antientropy:bytes(Replica),
    Sizes = maps:with([limit, dirty, sessions], Counts),
    Sizes#{entries => Entries - First, bytes => Bytes}.

%% @doc Returns the digest of the root, or `null' if a node of the tree has no digest.
-spec root(antientropy:replica()) -> binary() | null.
root(Replica) ->
    case antientropy:snapshot(Replica, #{rehash => false}) of
        {ok, Snapshot} ->
            {ok, Root} = antientropy_snapshot:root(Snapshot),
            ok = antientropy_snapshot:close(Snapshot),
            Root;
        {error, dirty} ->
            null
    end.

%% ---- puts and reads

%% @doc Puts a version, whose context may be pairs, and returns it.
-spec put(antientropy:replica(), cluster_lives:life(), Key :: binary(), antientropy:value(), Context) ->
    {ok, antientropy:version()} | antientropy:refused() when
    Context :: antientropy:clock_like().
put(Replica, Life, Key, Value, Context) ->
    case antientropy:merge([Context]) of
        {ok, Clock} -> put_under(Replica, Life, Key, Value, Clock);
        Refused -> Refused
    end.

put_under(Replica, Life, Key, Value, Clock) ->
    case antientropy:put(Replica, Life, Key, Value, Clock) of
        {ok, #{counter := Counter}} -> {ok, #{clock => Clock#{Life => Counter}, value => Value}};
        Refused -> Refused
    end.

%% @doc Returns the versions of a key, and the greatest counter of a life that was ever accepted for it.
-spec own(antientropy:replica(), cluster_lives:life(), Key :: binary()) ->
    {ok, [antientropy:version()], Top :: non_neg_integer()}.
own(Replica, Life, Key) ->
    {ok, Versions} = antientropy:get(Replica, Key),
    {ok, Top} = antientropy:top_counter(Replica, Life, Key),
    {ok, Versions, Top}.

%% @doc Accepts rows of a key, and returns the versions and the row now held.
-spec read(antientropy:replica(), Key :: binary(), Rows :: [binary()]) ->
    {ok, [antientropy:version()], Row :: binary()} | antientropy:refused() | {error, term()}.
read(Replica, Key, Rows) ->
    case antientropy:row(Replica, Key) of
        {ok, Row} -> read(Replica, Key, Row, lists:usort(Rows) -- [Row]);
        Refused -> Refused
    end.

read(Replica, Key, Row, []) ->
    {ok, Versions} = antientropy:get(Replica, Key),
    {ok, Versions, Row};
read(Replica, Key, _, [Other | Others]) ->
    case antientropy:load_rows(Replica, Other) of
        {ok, _} ->
            {ok, Row} = antientropy:row(Replica, Key),
            read(Replica, Key, Row, Others -- [Row]);
        Refused ->
            Refused
    end.

%% @doc Returns the result of {@link read/3}, and leaves the replica unchanged.
-spec read_apart(antientropy:replica(), cluster_ring:range(), Key :: binary(), Rows :: [binary()]) ->
    {ok, [antientropy:version()], Row :: binary()} | antientropy:refused() | {error, term()}.
read_apart(Replica, Range, Key, Rows) ->
    case antientropy:row(Replica, Key) of
        {ok, Row} ->
            {ok, Scratch} = antientropy:new(cluster_ring:replica_options(Range)),
            Read = read(Scratch, Key, [Row | Rows]),
            ok = antientropy:close(Scratch),
            Read;
        Refused ->
            Refused
    end.

%% @doc Looks among new entries for one that shows that the replica has forgotten something: a version of another
%% replica whose clock has a greater counter of this life than all entries of its key before it. This node had made that
%% version, and brought it to its disk, before anyone else had it.
-spec forgotten(antientropy:replica(), cluster_lives:life(), [antientropy:entry()]) -> boolean().
forgotten(Replica, Life, Entries) ->
    case [Entry || #{source := Source, clock := #{Life := _}} = Entry <- Entries, Source =/= put] of
        Some when length(Some) =< ?MOST_SCANS -> lists:any(fun(Entry) -> is_forgotten(Replica, Life, Entry) end, Some);
        Many -> is_any_forgotten(Replica, Life, Many)
    end.

is_forgotten(Replica, Life, #{number := Number, key := Key, clock := Clock}) ->
    #{Life := Counter} = Clock,
    {ok, Top} = antientropy:top_counter(Replica, Life, Key, Number),
    Counter > Top.

%% Looks for one of many in one pass over the journal.
is_any_forgotten(Replica, Life, [#{number := First} | _] = Many) ->
    Look = fun(#{number := Number, key := Key, clock := Clock, source := Source}, {Tops, IsForgotten}) ->
        case Tops of
            #{Key := Top} ->
                Counter = maps:get(Life, Clock, 0),
                IsLater = Number >= First andalso Source =/= put andalso Counter > Top,
                {Tops#{Key := max(Top, Counter)}, IsForgotten orelse IsLater};
            _ ->
                {Tops, IsForgotten}
        end
    end,
    Tops = maps:from_list([{Key, 0} || #{key := Key} <- Many]),
    {ok, #{first := Begin}} = antientropy:count(Replica),
    {ok, {_, IsForgotten}} = antientropy:fold_entries(Look, {Tops, false}, Replica, Begin),
    IsForgotten.
