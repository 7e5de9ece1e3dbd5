%% @doc Counters and histograms of this node since its start, in a table: no call waits for a process or a disk.
-module(cluster_metrics).

-export([begin_table/0, count/2, add/3, observe/3, set/3]).
-export([values/1, histograms/1, bounds_micros/0]).

-export_type([name/0, labels/0, histogram/0]).

-define(BOUNDS_MICROS, [500, 1000, 2500, 5000, 10000, 25000, 50000, 100000, 250000, 500000, 1000000, 2500000]).
%% A row of a histogram is its key, the sum of its samples, a count for each bound, and a count for the samples over the
%% last bound.
-define(FIRST_BOUND, 3).

-type name() :: atom().
-type labels() :: [{atom(), atom() | integer() | binary()}].
-type histogram() :: #{sum_micros := non_neg_integer(), counts := [non_neg_integer()]}.
%% A count for each bound, of samples up to it and over the previous bound, and a count for the rest.

%% @doc Makes the table, which this process owns.
-spec begin_table() -> ok.
begin_table() ->
    ?MODULE = ets:new(?MODULE, [named_table, public, {write_concurrency, true}]),
    ok.

%% @doc Adds one to a counter.
-spec count(name(), labels()) -> ok.
count(Name, Labels) ->
    add(Name, Labels, 1).

%% @doc Adds to a counter.
-spec add(name(), labels(), non_neg_integer()) -> ok.
add(Name, Labels, Count) ->
    Key = {Name, Labels},
    _ = ets:update_counter(?MODULE, Key, Count, {Key, 0}),
    ok.

%% @doc Sets a value.
-spec set(name(), labels(), integer()) -> ok.
set(Name, Labels, Value) ->
    true = ets:insert(?MODULE, {{Name, Labels}, Value}),
    ok.

%% @doc Adds a time to a histogram.
-spec observe(name(), labels(), Micros :: non_neg_integer()) -> ok.
observe(Name, Labels, Micros) ->
    Key = {histogram, Name, Labels},
    Below = length(lists:takewhile(fun(Bound) -> Bound < Micros end, ?BOUNDS_MICROS)),
    Empty = list_to_tuple([Key, 0 | [0 || _ <- [rest | ?BOUNDS_MICROS]]]),
    _ = ets:update_counter(?MODULE, Key, [{2, Micros}, {?FIRST_BOUND + Below, 1}], Empty),
    ok.

%% @doc Returns the values of a counter by labels.
-spec values(name()) -> [{labels(), integer()}].
values(Name) ->
    lists:sort([{Labels, Value} || [Labels, Value] <- ets:match(?MODULE, {{Name, '$1'}, '$2'})]).

%% @doc Returns the histograms of a name by labels.
-spec histograms(name()) -> [{labels(), histogram()}].
histograms(Name) ->
    Keys = [Key || {histogram, Of, _} = Key <- keys(), Of =:= Name],
    [histogram(Row) || Key <- lists:sort(Keys), Row <- ets:lookup(?MODULE, Key)].

histogram(Row) ->
    [{histogram, _, Labels}, Sum | Counts] = tuple_to_list(Row),
    {Labels, #{sum_micros => Sum, counts => Counts}}.

keys() ->
    [element(1, Row) || Row <- ets:tab2list(?MODULE)].

%% @doc Returns the upper bounds of a histogram's counts.
-spec bounds_micros() -> [pos_integer()].
bounds_micros() ->
    ?BOUNDS_MICROS.
