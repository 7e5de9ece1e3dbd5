%% @doc A Dynamo-style store: puts, gets and its status.
-module(cluster).

-export([put/2, put/3, put/4, delete/2, get/1, get/2, status/0, status_of_all/0, table/0, json/0, dump/0, versions/1]).

-export_type([json/0, options/0]).

-type json() :: integer() | boolean() | null | binary() | [json()] | #{atom() | binary() => json()}.
%% Terms that are written as JSON. Binaries are strings, of UTF-8.
-type options() :: #{r => pos_integer(), w => pos_integer()}.
%% Numbers of replicas that a get must see, and of disks that must have a put, by default from the settings.

%% @doc Puts a value of a key that the client hasn't read: see {@link put/3}.
-spec put(Key :: binary(), antientropy:value()) -> {ok, cluster_coordinator:stored()} | cluster_refusal:refused().
put(Key, Value) ->
    put(Key, Value, #{}).

%% @doc Puts a value of a key. The context is the merged clock of all versions that the client has read.
-spec put(Key :: binary(), antientropy:value(), Context :: antientropy:clock_like()) ->
    {ok, cluster_coordinator:stored()} | cluster_refusal:refused().
put(Key, Value, Context) ->
    put(Key, Value, Context, #{}).

%% @doc Puts a value as {@link put/3} does, with options.
-spec put(Key :: binary(), antientropy:value(), Context :: antientropy:clock_like(), options()) ->
    {ok, cluster_coordinator:stored()} | cluster_refusal:refused().
put(Key, Value, Context, Options) ->
    {_, _, W} = cluster_settings:quorums(),
    cluster_requests:put(Key, Value, Context, maps:get(w, Options, W)).

%% @doc Deletes a key: puts a tombstone.
-spec delete(Key :: binary(), Context :: antientropy:clock_like()) ->
    {ok, cluster_coordinator:stored()} | cluster_refusal:refused().
delete(Key, Context) ->
    put(Key, tombstone, Context).

%% @doc Returns the versions of a key. Several are concurrent.
-spec get(Key :: binary()) -> {ok, cluster_coordinator:found()} | cluster_refusal:refused().
get(Key) ->
    get(Key, #{}).

%% @doc Returns the versions of a key as {@link get/1} does, with options.
-spec get(Key :: binary(), options()) -> {ok, cluster_coordinator:found()} | cluster_refusal:refused().
get(Key, Options) ->
    {_, R, _} = cluster_settings:quorums(),
    cluster_requests:get(Key, maps:get(r, Options, R)).

%% @doc Returns the counts of this node, as they are written to JSON.
-spec status() -> json().
status() ->
    Asides = [#{folder => text(Folder), why => text(Why)} || {Folder, Why} <- cluster_folder:asides()],
    Status = #{
        place => cluster_ring:here(),
        life => life(),
        ready => cluster_life:is_ready(),
        full => cluster_space:is_full(),
        aside => Asides,
        down => cluster_wire:down(),
        requests => cluster_requests:counts()
    },
    maps:merge(Status, status_of_store()).

life() ->
    case cluster_life:number() of
        none -> null;
        Number -> Number
    end.

text(String) ->
    unicode:characters_to_binary(String).

%% Returns the counts of the processes that run while there is a life.
status_of_store() ->
    try
        #{rounds := Rounds, keys := Keys, bytes := Bytes} = cluster_repair:count(),
        #{
            ranges => [range_status(cluster_range:counts(Range)) || Range <- cluster_ring:held()],
            hints => cluster_hints:count(),
            slots => slots_status(cluster_slots:count()),
            rounds => Rounds,
            keys_repaired => Keys,
            bytes_repaired => Bytes
        }
    catch
        exit:_ ->
            #{
                ranges => [],
                hints => #{pending => 0, delivered => 0, bytes => 0},
                slots => #{target => 0, lent => 0, free => 0, waiting => 0, p99_micros => null},
                rounds => 0,
                keys_repaired => 0,
                bytes_repaired => 0
            }
    end.

range_status(#{root := null} = Counts) -> Counts;
range_status(#{root := Root} = Counts) -> Counts#{root := hex(Root)}.

slots_status(#{p99_micros := none} = Counts) -> Counts#{p99_micros := null};
slots_status(Counts) -> Counts.

%% @doc Returns the counts of all nodes that answer, by place.
-spec status_of_all() -> [{cluster_ring:place(), json() | down}].
status_of_all() ->
    [{Place, status_of(Place)} || Place <- cluster_settings:places()].

status_of(Place) ->
    case Place =:= cluster_ring:here() of
        true ->
            status();
        false ->
            case cluster_wire:call(Place, ?MODULE, status, []) of
                {ok, Status} -> Status;
                down -> down
            end
    end.

%% @doc Returns the counts of all nodes as JSON.
-spec json() -> iodata().
json() ->
    jiffy:encode([Status || {_, Status} <- status_of_all(), Status =/= down]).

%% @doc Returns the counts of all nodes as a table.
-spec table() -> iodata().
table() ->
    [table_line(["place", "life", "entries", "rounds", "keys", "bytes", "hints", "delivered", "slots", "down"])
        | [table_line(table_row(Place, Status)) || {Place, Status} <- status_of_all()]].

table_row(Place, down) ->
    [integer_to_list(Place), "down"];
table_row(Place, Status) ->
    #{
        life := Life,
        ranges := Ranges,
        rounds := Rounds,
        keys_repaired := Keys,
        bytes_repaired := Bytes,
        hints := #{pending := Pending, delivered := Delivered},
        slots := #{target := Target},
        down := Down
    } = Status,
    Entries = lists:sum([Count || #{entries := Count} <- Ranges]),
    Counts = [Place, Life, Entries, Rounds, Keys, Bytes, Pending, Delivered, Target],
    [count_text(Count) || Count <- Counts] ++ [lists:join($,, [integer_to_list(Other) || Other <- Down])].

count_text(null) -> "-";
count_text(Count) -> integer_to_list(Count).

table_line(Cells) ->
    [[io_lib:format("~11ts", [lists:flatten(Cell)]) || Cell <- Cells], $\n].

%% @doc Returns everything that this node holds, as it is written to JSON.
-spec dump() -> json().
dump() ->
    #{pending := Pending} = cluster_hints:count(),
    #{
        place => cluster_ring:here(),
        life => life(),
        ranges => [range_dump(Range, cluster_range:dump(Range)) || Range <- cluster_ring:held()],
        pending => Pending
    }.

range_dump(Range, {Root, Rows}) ->
    #{
        range => Range,
        root => hex(Root),
        rows => [#{key => base64:encode(Key), versions => versions(Versions)} || {Key, Versions} <- Rows]
    }.

%% @doc Returns versions as they are written to JSON.
-spec versions([antientropy:version()]) -> json().
versions(Versions) ->
    [version(Version) || Version <- Versions].

version(#{clock := Clock, value := tombstone}) -> version(Clock, <<>>, <<"tombstone">>);
version(#{clock := Clock, value := Value}) -> version(Clock, Value, <<"live">>).

version(Clock, Value, Kind) ->
    #{value => base64:encode(Value), clock => iolist_to_binary(cluster_clock:text(Clock)), kind => Kind}.

hex(Bytes) ->
    string:lowercase(binary:encode_hex(Bytes)).
