%% @doc The ring: the places that hold a key, and those that carry hints for it (the Dynamo paper, sections 4.2, 4.3).
%%
%% The ring consists of places, which never change. A place's number in clocks is its life, which does change: see
%% {@link cluster_life}. The preference list of a range is the list of places, rotated left by the range's number.
-module(cluster_ring).

-export([here/0, node_of/1, digest/0, replica_options/1, range/1, held/0, holders/1, carriers/1, partners/1, others/0]).

-export_type([place/0, range/0]).

-define(FORMAT, 2).

-type place() :: 1..31.
-type range() :: 0..255.

%% @doc Returns the place of this node.
-spec here() -> place().
here() ->
    cluster_settings:place().

%% @doc Returns the Erlang node of a place.
-spec node_of(place()) -> node().
node_of(Place) ->
    {Place, Host} = lists:keyfind(Place, 1, cluster_settings:hosts()),
    list_to_atom("p" ++ integer_to_list(Place) ++ "@" ++ Host).

%% @doc Returns a digest of the ring's settings. Nodes with different digests refuse each other's calls.
-spec digest() -> binary().
digest() ->
    Ring = {?FORMAT, cluster_settings:bits(), cluster_settings:hosts(), cluster_settings:quorums()},
    crypto:hash(sha256, term_to_binary(Ring, [{minor_version, 2}])).

%% @doc Returns the options of the replica of a range, except for its limit.
-spec replica_options(range()) -> antientropy:options().
replica_options(Range) ->
    #{format => ?FORMAT, bits => cluster_settings:bits(), range => Range}.

%% @doc Returns the range of a key. Refused: `bad_key'.
-spec range(Key :: binary()) -> {ok, range()} | antientropy:refused().
range(Key) ->
    case antientropy:place(?FORMAT, cluster_settings:bits(), Key) of
        {ok, #{range := Range}} -> {ok, Range};
        Refused -> Refused
    end.

%% @doc Returns the ranges that this node holds.
-spec held() -> [range()].
held() ->
    [Range || Range <- lists:seq(0, (1 bsl cluster_settings:bits()) - 1), lists:member(here(), holders(Range))].

%% @doc Returns the places that hold a range: the first of its preference list.
-spec holders(range()) -> [place()].
holders(Range) ->
    {N, _, _} = cluster_settings:quorums(),
    lists:sublist(preference(Range), N).

%% @doc Returns the places that carry hints for the holders of a range: the others of its preference list.
-spec carriers(range()) -> [place()].
carriers(Range) ->
    preference(Range) -- holders(Range).

%% @doc Returns the other holders of a range.
-spec partners(range()) -> [place()].
partners(Range) ->
    holders(Range) -- [here()].

%% @doc Returns all other places.
-spec others() -> [place()].
others() ->
    cluster_settings:places() -- [here()].

preference(Range) ->
    Places = cluster_settings:places(),
    {Before, After} = lists:split(Range rem length(Places), Places),
    After ++ Before.
