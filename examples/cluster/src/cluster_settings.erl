%% @doc The settings of this node: the parameters of the application `cluster'.
%%
%% All nodes have the same settings of the ring ({@link cluster_ring:digest/0}). The others may differ.
-module(cluster_settings).

-export([check/0]).
-export([place/0, incarnation/0, folder/0, hosts/0, places/0, bits/0, quorums/0]).
-export([front/1, limit/0, checkpoint_entries/0, hint_bytes/0, round_ms/0, slots/0]).
-export([is_repair_on/0, is_handoff_on/0, is_read_repair_on/0]).

-export_type([front/0]).

%% Maximum number of places, by the numbers in clocks: see {@link cluster_lives}.
-define(MOST_PLACES, 31).
-define(MOST_BITS, 8).
-define(MOST_LIMIT, 1000000).

-type front() :: #{
    ip := inet:ip_address(),
    port := inet:port_number(),
    connections := pos_integer(),
    tls := {CertFile :: file:filename(), KeyFile :: file:filename()} | none,
    token := file:filename() | none
}.
%% An HTTP front: its address, its maximum number of connections, its certificate, and the file with the token that a
%% request must have.

%% ---- the check

%% @doc Checks the settings. An error says which one is missing or invalid.
-spec check() -> ok | {error, Why :: string()}.
check() ->
    try
        ok = lists:foreach(fun check/1, checks())
    catch
        throw:Name -> {error, text("the setting ~ts is missing or wrong: ~0tp", [Name, env(Name)])}
    end.

text(Format, Arguments) ->
    lists:flatten(io_lib:format(Format, Arguments)).

check({Name, IsRight}) ->
    try IsRight(env(Name)) of
        true -> ok;
        _ -> throw(Name)
    catch
        error:_ -> throw(Name)
    end.

env(Name) ->
    application:get_env(cluster, Name, undefined).

checks() ->
    [
        {places, fun are_places/1},
        {place, fun(Place) -> lists:keymember(Place, 1, env(places)) end},
        {bits, fun(Bits) -> is_within(0, Bits, ?MOST_BITS) end},
        {quorums, fun are_quorums/1},
        {folder, fun is_text/1},
        {incarnation, fun(Incarnation) -> Incarnation =:= none orelse is_positive(Incarnation) end},
        {limit, fun(Limit) -> is_within(1, Limit, ?MOST_LIMIT) end},
        {slots, fun({Least, Most, Micros}) -> is_within(1, Least, Most) andalso is_positive(Micros) end}
    ] ++
        [{Name, fun is_positive/1} || Name <- [checkpoint_entries, hint_bytes, round_ms, http_connections]] ++
        [{Name, fun(State) -> State =:= on orelse State =:= off end} || Name <- [repair, handoff, read_repair]] ++
        [{Name, fun(Port) -> is_within(0, Port, 65535) end} || Name <- [http_port, admin_port]] ++
        [{Name, fun(Host) -> is_tuple(address(Host)) end} || Name <- [http_host, admin_host]] ++
        [{Name, fun(File) -> File =:= none orelse is_file(File) end} || Name <- [http_token, admin_token]] ++
        [{https, fun is_tls/1}].

are_places([_ | _] = Hosts) ->
    Places = [Place || {Place, Host} <- Hosts, is_within(1, Place, ?MOST_PLACES), is_text(Host)],
    length(lists:usort(Places)) =:= length(Hosts).

are_quorums({N, R, W}) ->
    is_within(1, N, length(env(places))) andalso is_within(1, R, N) andalso is_within(1, W, N).

is_tls(none) -> true;
is_tls({CertFile, KeyFile}) -> is_file(CertFile) andalso is_file(KeyFile).

is_within(Least, Number, Most) -> is_integer(Number) andalso Least =< Number andalso Number =< Most.

is_positive(Number) -> is_integer(Number) andalso Number > 0.

is_text(Text) -> io_lib:printable_unicode_list(Text) andalso Text =/= "".

is_file(File) -> is_text(File) andalso filelib:is_regular(File).

%% ---- the ring

%% @doc Returns this node's place on the ring.
-spec place() -> cluster_ring:place().
place() -> value(place).

%% @doc Returns the places of the ring, in its order, each with its host.
-spec hosts() -> [{cluster_ring:place(), Host :: string()}].
hosts() -> value(places).

%% @doc Returns the places of the ring, in its order.
-spec places() -> [cluster_ring:place()].
places() -> [Place || {Place, _} <- hosts()].

%% @doc Returns the number of bits of a range's number: the ring has 2^bits ranges.
-spec bits() -> 0..?MOST_BITS.
bits() -> value(bits).

%% @doc Returns the numbers of places that hold a range, that a read must see, and that must have a put before its
%% answer. A request may name other numbers R and W.
-spec quorums() -> {N :: pos_integer(), R :: pos_integer(), W :: pos_integer()}.
quorums() -> value(quorums).

%% ---- this node

%% @doc Returns the incarnation that an operator names for a new life.
-spec incarnation() -> pos_integer() | none.
incarnation() -> value(incarnation).

%% @doc Returns the folder of this node's files.
-spec folder() -> file:filename().
folder() -> value(folder).

%% @doc Returns an HTTP front: for clients, or for an administrator.
-spec front(clients | admin) -> front().
front(clients) -> front(http_host, http_port, http_token);
front(admin) -> front(admin_host, admin_port, admin_token).

front(Host, Port, Token) ->
    #{
        ip => address(value(Host)),
        port => value(Port),
        connections => value(http_connections),
        tls => value(https),
        token => value(Token)
    }.

%% Returns the address of a host, by IPv6 if it has no other.
address(Host) ->
    case inet:getaddr(Host, inet) of
        {ok, Address} ->
            Address;
        {error, _} ->
            {ok, Address} = inet:getaddr(Host, inet6),
            Address
    end.

%% @doc Returns the maximum number of entries of a range's journal.
-spec limit() -> pos_integer().
limit() -> value(limit).

%% @doc Returns the number of entries between two checkpoints of a range.
-spec checkpoint_entries() -> pos_integer().
checkpoint_entries() -> value(checkpoint_entries).

%% @doc Returns the maximum number of bytes of the pending hints for an owner and a range.
-spec hint_bytes() -> pos_integer().
hint_bytes() -> value(hint_bytes).

%% @doc Returns the time between two rounds of repair, in milliseconds.
-spec round_ms() -> pos_integer().
round_ms() -> value(round_ms).

%% @doc Returns the minimum and the maximum number of slots, and the latency of a slow put in microseconds.
-spec slots() -> {Floor :: pos_integer(), Ceiling :: pos_integer(), ThresholdMicros :: pos_integer()}.
slots() -> value(slots).

%% @doc Returns true if rounds of repair begin by themselves. Without them a range still takes the others' versions
%% after a start.
-spec is_repair_on() -> boolean().
is_repair_on() -> value(repair) =:= on.

%% @doc Returns true if hints are delivered to their owners.
-spec is_handoff_on() -> boolean().
is_handoff_on() -> value(handoff) =:= on.

%% @doc Returns true if gets write missing versions back to holders.
-spec is_read_repair_on() -> boolean().
is_read_repair_on() -> value(read_repair) =:= on.

value(Name) ->
    {ok, Value} = application:get_env(cluster, Name),
    Value.
