%% @doc The time that this node waits for a place before it asks another one as well.
%%
%% It follows the measured latency of that place for that kind of call: the mean plus eight deviations, which are
%% measured as TCP does. A place that responds to other calls meanwhile is busy, not silent: another place would only be
%% asked for more work. A silent place isn't down yet: see {@link cluster_wire}.
-module(cluster_patience).

-export([begin_table/0, ms/2, is_silent/2, note/3]).

-export_type([kind/0]).

-define(LEAST_MS, 20).
-define(DEVIATIONS, 8).
%% The time before the first call.
-define(UNKNOWN_MS, 100).

-type kind() :: {module(), Function :: atom()}.

%% @doc Makes the table, which this process owns.
-spec begin_table() -> ok.
begin_table() ->
    ?MODULE = ets:new(?MODULE, [named_table, public, {read_concurrency, true}, {write_concurrency, true}]),
    ok.

%% @doc Returns the time to wait for a place, in milliseconds.
-spec ms(cluster_ring:place(), kind()) -> pos_integer().
ms(Place, Kind) ->
    case ets:lookup(?MODULE, {Place, Kind}) of
        [{_, Mean, Deviation}] ->
            Ms = (Mean + ?DEVIATIONS * Deviation) div 1000,
            min(cluster_wire:limit_ms(), max(?LEAST_MS, Ms));
        [] ->
            ?UNKNOWN_MS
    end.

%% @doc Returns true if nothing was heard from a place for a time in milliseconds.
-spec is_silent(cluster_ring:place(), Ms :: pos_integer()) -> boolean().
is_silent(Place, Ms) ->
    case ets:lookup(?MODULE, Place) of
        [{_, HeardMs}] -> now_ms() - HeardMs >= Ms;
        [] -> true
    end.

%% @doc Records the latency of a call that was answered now, in microseconds. (Of two at one moment, one may be lost.)
-spec note(cluster_ring:place(), kind(), Micros :: non_neg_integer()) -> ok.
note(Place, Kind, Micros) ->
    Sample = min(Micros, 1000 * cluster_wire:limit_ms()),
    true = ets:insert(?MODULE, with_sample(Sample, {Place, Kind}, ets:lookup(?MODULE, {Place, Kind}))),
    true = ets:insert(?MODULE, {Place, now_ms()}),
    ok.

with_sample(Sample, Key, []) ->
    {Key, Sample, Sample div 2};
with_sample(Sample, Key, [{_, Mean, Deviation}]) ->
    {Key, (7 * Mean + Sample) div 8, (3 * Deviation + abs(Sample - Mean)) div 4}.

now_ms() ->
    erlang:monotonic_time(millisecond).
